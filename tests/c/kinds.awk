# Reads the preprocessed kinds.h, and prints a C source:
#
#   -v output=functions    its functions, with bodies that trap
#   -v output=variables    its variables
#   -v output=facts        a program that prints the compiler's facts about all of them, a line for each fact, in the form of
#                          graph.awk
function trimmed(text) {
    gsub(/[ \t]+/, " ", text)
    sub(/^ /, "", text)
    sub(/ $/, "", text)
    return text
}

# A line without its attributes. Sets `explicit` if an attribute or a keyword asks for an alignment.
function bare(line) {
    explicit = line ~ /aligned|_Alignas/
    while (match(line, /__attribute__\(\([a-z_]+(\([0-9]+\))?(, [a-z_]+(\([0-9]+\))?)*\)\)/))
        line = substr(line, 1, RSTART - 1) substr(line, RSTART + RLENGTH)
    sub(/_Alignas\([0-9]+\)/, "", line)
    sub(/ *;$/, "", line)
    return trimmed(line)
}

# Parts a declaration into the type, the name, how many dimensions, and the width where it is a bit field; of a pointer to a
# function its parameters.
function part_declaration(text) {
    type = name = width = params = ""
    dims = is_call = 0
    if (match(text, /\(\*[a-z_0-9]+\)\(.*\)$/)) {
        params = substr(text, RSTART, RLENGTH)
        type = trimmed(substr(text, 1, RSTART - 1))
        name = params
        sub(/^\(\*/, "", name)
        sub(/\).*/, "", name)
        sub(/^\(\*[a-z_0-9]+\)\(/, "", params)
        sub(/\)$/, "", params)
        is_call = 1
        return
    }
    if (match(text, /\(\*[a-z_0-9]+\)\[[0-9]*\]$/)) {
        name = substr(text, RSTART + 2)
        sub(/\).*/, "", name)
        type = trimmed(substr(text, 1, RSTART - 1)) " *"
        return
    }
    if (match(text, / *: *[0-9]+$/)) {
        width = substr(text, RSTART, RLENGTH)
        sub(/ *: */, "", width)
        text = substr(text, 1, RSTART - 1)
    }
    while (match(text, /\[[0-9]*\]$/)) {
        if (substr(text, RSTART, RLENGTH) == "[]") open_end = 1
        text = substr(text, 1, RSTART - 1)
        dims++
    }
    # a nameless bit field
    if (width != "" && text ~ /(^| )(int|short|char|long)$/) { type = text; return }
    match(text, /[A-Za-z_0-9]+$/)
    name = substr(text, RSTART)
    type = trimmed(substr(text, 1, RSTART - 1))
}

# A type without qualifiers.
function unqualified(type) {
    gsub(/\*/, " * ", type)
    type = " " type " "
    gsub(/ /, "  ", type)
    gsub(/ (const|volatile|restrict|_Atomic) /, " ", type)
    return trimmed(type)
}

# describe: puts a format that describes the type into `format`, and appends the arguments of the format to `values`. An array of
# arrays is one array of all their elements.
function describe(type, dims, expression,    k, element, plain) {
    plain = unqualified(type)
    element = expression
    for (k = 0; k < dims; k++) element = element "[0]"
    while (plain in typedef_type && !(plain in vector)) {
        for (k = 0; k < typedef_dims[plain]; k++) element = element "[0]"
        type = typedef_type[plain]
        plain = unqualified(type)
    }
    if (element != expression) {
        format = format "array %zu of "
        values = values ", " (open_end ? "(size_t)0" : "sizeof(" expression ") / sizeof(" element ")")
        open_end = 0
    }
    if (plain ~ /\*$/ || type ~ /^_Atomic\(.*\*\)$/) { format = format "pointer"; return }
    if (plain in vector) {
        format = format "vector %zu of "
        values = values ", sizeof(" element ") / sizeof((" element ")[0])"
        describe(typedef_type[plain], 0, "(" element ")[0]")
        return
    }
    if (plain ~ /^enum/) { format = format "enumeration"; return }
    if (plain ~ /^struct/) { format = format "structure"; return }
    if (plain ~ /^union/) { format = format "union"; return }
    format = format "%s"
    values = values ", GROUP(" element ")"
}

# fact LINE TYPE DIMS EXPRESSION: prints a statement that prints the line, the description of the expression's type, and its size.
function fact(line, type, dims, expression,    open) {
    open = open_end
    format = values = ""
    if (type == "void") { print "    printf(\"" line " void size 0\\n\");"; return }
    describe(type, dims, expression)
    print "    printf(\"" line " " format " size %zu\\n\"" values ", " (open ? "(size_t)0" : "sizeof(" expression ")") ");"
}

# Splits the parameters of a function at their commas, into `param`.
function part_params(text,    i, c, depth, count) {
    variadic = 0
    if (text == "void" || text == "") return 0
    count = 1
    param[1] = ""
    for (i = 1; i <= length(text); i++) {
        c = substr(text, i, 1)
        if (c == "(") depth++
        if (c == ")") depth--
        if (c == "," && depth == 0) { param[++count] = ""; continue }
        param[count] = param[count] c
    }
    for (i = 1; i <= count; i++) param[i] = trimmed(param[i])
    if (param[count] == "...") { variadic = 1; count-- }
    return count
}

function function_facts(key, result, params,    i, count, flag, type, line) {
    count = part_params(params)
    flag = variadic ? " variadic" : ""
    print "    printf(\"function " key " params " count flag "\\n\");"
    fact(key " result", result, 0, "(*(__typeof__(" result ") *)0)")
    for (i = 1; i <= count; i++) {
        type = param[i]
        line = key " param " i
        if (type ~ /\(\*\)\(/) print "    printf(\"" line " pointer size %zu\\n\", sizeof(__typeof__(" type ")));"
        else fact(line, type, 0, "(*(__typeof__(" type ") *)0)")
    }
}

# ---- structures, unions and enumerations: a tree of members

function begin(kind, tag) {
    open_node[++depth] = ++nodes
    kind_of[nodes] = kind
    tag_of[nodes] = tag
    count_of[nodes] = 0
}

function add_member(type, name, dims, width, child,    n, k) {
    n = open_node[depth]
    k = ++count_of[n]
    member_type[n, k] = type
    member_name[n, k] = name
    member_dims[n, k] = dims
    member_open[n, k] = open_end
    member_width[n, k] = width
    member_child[n, k] = child
    member_call[n, k] = is_call
    member_params[n, k] = params
    open_end = 0
}

# Whether a type asks for an alignment.
function is_aligned(type,    plain) {
    plain = unqualified(type)
    return (plain in typedef_explicit) || (plain in aligned)
}

# A bit field: sets all its bits in an object of zeros. The bytes show where they are, and the value shows whether it is signed.
function bit_field_fact(line, name, type, of,    is_truth) {
    is_truth = unqualified(of) == "_Bool"
    print "    { static " type " object; object." name " = " (is_truth ? 1 : -1) ";"
    print "      print_bits(\"" line "\", &object, sizeof object);"
    format = values = ""
    describe(of, 0, "(" of ")0")
    if (format == "%s" && !is_truth) values = ", object." name " < 0 ? \"signed\" : \"unsigned\""
    print "      printf(\" " format " size %zu\\n\"" values ", sizeof(" of ")); }"
}

function member_fact(n, k, type, key,    name, line, expression) {
    name = member_name[n, k]
    line = key " member " (++place) " " name
    expression = "((" type " *)0)->" name
    if (member_width[n, k] != "") { bit_field_fact(line, name, type, member_type[n, k]); return }
    print "    printf(\"" line " bit %zu width 0\", 8 * offsetof(" type ", " name "));"
    open_end = member_open[n, k]
    if (member_call[n, k]) fact("", "void *", 0, expression)
    else fact("", member_type[n, k], member_dims[n, k], expression)
}

# The members, including those of nameless aggregates.
function members_facts(n, type, key,    k) {
    for (k = 1; k <= count_of[n]; k++) {
        if (member_name[n, k] != "") member_fact(n, k, type, key)
        else if (member_child[n, k]) members_facts(member_child[n, k], type, key)
    }
}

function enumeration_facts(n, size, key,    k) {
    print "    printf(\"enumeration " key " size %zu\\n\", sizeof(" size "));"
    for (k = 1; k <= count_of[n]; k++)
        print "    printf(\"" key " enumerator " k " " member_name[n, k] " %llu\\n\", (unsigned long long)" member_name[n, k] ");"
}

# The contents of nameless types of members.
function inner_facts(n, type, key,    k, j, name, element) {
    for (k = 1; k <= count_of[n]; k++) {
        name = member_name[n, k]
        if (member_call[n, k]) function_facts(key "." name, member_type[n, k], member_params[n, k])
        if (!member_child[n, k]) continue
        if (name == "") { inner_facts(member_child[n, k], type, key); continue }
        element = "((" type " *)0)->" name
        if (member_type[n, k] ~ /\*$/) element = "*" element
        for (j = 0; j < member_dims[n, k]; j++) element = element "[0]"
        aggregate_facts(member_child[n, k], "__typeof__(" element ")", key "." name)
    }
}

# Whether an aggregate, or a member of it, asks for an alignment.
function has_alignment(n,    k) {
    if (explicit_of[n]) return 1
    for (k = 1; k <= count_of[n]; k++) {
        if (member_child[n, k] && member_dims[n, k] == 0 && member_type[n, k] !~ /\*$/ && has_alignment(member_child[n, k])) return 1
        if (!member_child[n, k] && member_dims[n, k] == 0 && is_aligned(member_type[n, k])) return 1
    }
    return 0
}

function aggregate_facts(n, type, key,    align) {
    if (kind_of[n] == "enum") { enumeration_facts(n, type, key); return }
    align = has_alignment(n) ? "_Alignof(" type ")" : "(size_t)0"
    print "    printf(\"" word[kind_of[n]] " " key " size %zu align %zu\\n\", sizeof(" type "), " align ");"
    place = 0
    members_facts(n, type, key)
    inner_facts(n, type, key)
}

# The end of an aggregate, which the name of a member may follow.
function end(text, asked,    n) {
    n = open_node[depth--]
    if (asked) explicit_of[n] = 1
    if (depth > 0) {
        part_declaration(kind_of[n] " " text)
        if (text == "") name = ""
        add_member(text ~ /^\*/ ? kind_of[n] " *" : kind_of[n], name, dims, "", n)
        return
    }
    defined[tag_of[n]] = 1
    if (has_alignment(n)) aligned[kind_of[n] " " tag_of[n]] = 1
    if (output == "facts") aggregate_facts(n, kind_of[n] " " tag_of[n], tag_of[n])
}

# ---- declarations at the top

function add_typedef(line) {
    if (line ~ /^typedef [a-z ]+ \**\(?\*?[a-z_]+\)?\([^()]*\)( |$)/ && line !~ /\[/) {
        # a function, or a pointer to one
        name = line
        sub(/^typedef [a-z ]+ \**\(?\*?/, "", name)
        sub(/\).*/, "", name)
        sub(/\(.*/, "", name)
        typedef_type[name] = line ~ /\(\*/ ? "void *" : "function"
        typedef_dims[name] = 0
        return
    }
    sub(/^typedef /, "", line)
    part_declaration(line)
    typedef_type[name] = type
    typedef_dims[name] = dims
    if (explicit) typedef_explicit[name] = 1
    if (has_vector) vector[name] = 1
    if (!explicit && is_aligned(type)) typedef_explicit[name] = 1
}

# The typedefs on the way to a type.
function passed(type,    plain, list) {
    plain = unqualified(type)
    while (plain in typedef_type) {
        list = list " typedef:" plain
        if (typedef_dims[plain] || (plain in vector)) break
        plain = unqualified(typedef_type[plain])
    }
    return list
}

function add_variable(line,    asked) {
    asked = explicit
    sub(/^extern /, "", line)
    part_declaration(line)
    if (output == "variables") return
    asked = asked || (dims == 0 && is_aligned(type))
    print "    printf(\"variable " name (dims ? "" : passed(type)) " align %zu\", " (asked ? "_Alignof(" name ")" : "(size_t)0") ");"
    fact("", type, dims, name)
}

function add_function(line,    params, result, i, count, list) {
    match(line, /[a-z_]+\(/)
    name = substr(line, RSTART, RLENGTH - 1)
    result = trimmed(substr(line, 1, RSTART - 1))
    params = substr(line, RSTART + RLENGTH)
    sub(/\)$/, "", params)
    if (output == "facts") { function_facts(name, result, params); return }
    count = part_params(params)
    for (i = 1; i <= count; i++) list = list (i > 1 ? ", " : "") "__typeof__(" param[i] ") a" i
    print result " " name "(" (count ? list : "void") (variadic ? ", ..." : "") ") { __builtin_trap(); }"
}

BEGIN {
    word["struct"] = "structure"
    word["union"] = "union"
    print "#include \"kinds.h\""
    if (output == "facts") {
        print "#include <stddef.h>\n#include <stdio.h>"
        print "#ifdef __clang__\n#define DECIMALS\n#else"
        print "#define DECIMALS _Float16: \"float\", _Float32: \"float\", _Float64: \"float\", _Float32x: \"float\", _Float64x: \"float\", \\"
        print "    _Decimal32: \"decimal\", _Decimal64: \"decimal\", _Decimal128: \"decimal\",\n#endif"
        print "#define GROUP(x) _Generic((x), _Bool: \"bool\", char: (char)-1 < 0 ? \"signed\" : \"unsigned\", signed char: \"signed\", \\"
        print "    unsigned char: \"unsigned\", short: \"signed\", unsigned short: \"unsigned\", int: \"signed\", unsigned int: \"unsigned\", \\"
        print "    long: \"signed\", unsigned long: \"unsigned\", long long: \"signed\", unsigned long long: \"unsigned\", \\"
        print "    __int128: \"signed\", unsigned __int128: \"unsigned\", float: \"float\", double: \"float\", long double: \"float\", \\"
        print "    DECIMALS QUAD: \"quad\", _Complex float: \"complex\", _Complex double: \"complex\", _Complex long double: \"complex\", \\"
        print "    _Complex QUAD: \"complex\", default: \"unknown\")"
        print "static void print_bits(const char *line, const void *object, size_t size)\n{"
        print "    size_t bit = 0, width = 0;"
        print "    for (size_t i = 8 * size; i-- > 0;)"
        print "        if (((const unsigned char *)object)[i / 8] >> i % 8 & 1) bit = i, width++;"
        print "    printf(\"%s bit %zu width %zu\", line, bit, width);\n}"
        print "int main(void)\n{"
    }
}

/^[ \t]*$/ { next }
{
    line = trimmed($0)
    has_vector = line ~ /vector_size/
    whole = line
    line = bare(line)
    open_end = 0
}
line ~ /^(struct|union|enum)( [a-z_0-9]+)? \{$/ { split(line, piece, " "); begin(piece[1], piece[2] == "{" ? "" : piece[2]); next }
line ~ /^\}/ { asked = explicit; sub(/^\} ?/, "", line); end(line, asked); next }
depth > 0 && kind_of[open_node[depth]] == "enum" {
    sub(/,$/, "", line)
    sub(/ *=.*/, "", line)
    is_call = 0
    add_member("", line, 0, "", 0)
    next
}
depth > 0 {
    if (explicit) explicit_of[open_node[depth]] = 1
    part_declaration(line)
    add_member(type, name, dims, width, 0)
    next
}
line ~ /^typedef / { add_typedef(line); next }
line ~ /^extern / {
    if (output == "functions") next
    if (output == "variables") { sub(/^extern /, "", whole); print whole; next }
    add_variable(line)
    next
}
line ~ /^(struct|union) [a-z_]+$/ { split(line, piece, " "); declared[piece[2]] = word[piece[1]]; next }
output != "variables" { add_function(line) }

END {
    if (output != "facts") exit
    for (tag in declared) if (!(tag in defined)) print "    printf(\"" declared[tag] " " tag " declared\\n\");"
    print "    return 0;\n}"
}
