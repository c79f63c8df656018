# Prints a C source of many declarations of all kinds: groups FIRST to LAST, each of a structure, an enumeration, unions, typedefs,
# variables and functions that use those of the previous group.
#
#   awk -v first=1 -v last=400 -f entries.awk
BEGIN {
    print "#include <stdarg.h>"
    print "#include <stddef.h>"
    for (i = first; i <= last; i++) {
        before = i > first ? i - 1 : first
        printf "enum kind_%d { LEFT_%d, RIGHT_%d = %d, FAR_%d = -%d };\n", i, i, i, i, i, i
        printf "struct node_%d;\n", i
        printf "typedef int (*visit_%d)(const struct node_%d *, void *, size_t);\n", i, i
        printf "struct node_%d {\n", i
        printf "    struct node_%d *next;\n    const struct node_%d *restrict other;\n", i, before
        printf "    volatile unsigned char bytes[%d][3];\n    enum kind_%d kind;\n", i % 7 + 1, i
        printf "    unsigned low : 3, high : %d;\n", i % 13 + 1
        printf "    union { double real; float _Complex pair; long whole; };\n"
        printf "    struct { short x, y; } place;\n    visit_%d visit;\n    _Bool here;\n    __int128 wide;\n};\n", i
        printf "typedef struct node_%d node_%d;\n", i, i
        printf "node_%d shared_%d;\nstatic const node_%d *kept_%d = &shared_%d;\n", i, i, i, i, i
        printf "static inline long sum_%d(const node_%d *node, int depth)\n{\n", i, i
        printf "    long sum = node->whole + depth;\n"
        printf "    for (int k = 0; k < depth; k++) { char c = (char)node->bytes[0][k %% 3]; sum += c; }\n"
        printf "    return sum;\n}\n"
        printf "long walk_%d(node_%d *node, struct node_%d other, unsigned count, ...)\n{\n", i, i, before
        printf "    va_list rest;\n    va_start(rest, count);\n    long total = sum_%d(node, (int)count) + other.low;\n", i
        printf "    switch (node->kind) {\n    case RIGHT_%d: total += va_arg(rest, long); break;\n", i
        printf "    default: if (node->visit) total += node->visit(kept_%d, node, count);\n    }\n", i
        printf "    va_end(rest);\n    return total > 0 ? total : sum_%d(node->next, 2);\n}\n", i
        if (i > first) printf "long pass_%d(node_%d *node) { return walk_%d(node->other ? &shared_%d : 0, shared_%d, 3u, 4L, node); }\n", i, i, before, before, before - (before > first)
    }
}
