# Reads what `pahole -s` and then `pahole` print, and prints a line for each structure and union with a tag: its kind, its tag, its
# size, and for each member its name, its bit and, if it is a bit field, its width, in the form of layouts.awk. The members of a
# nameless structure or union take its place. Types with parts that pahole does not know are left out.
function named(text) {
    if (match(text, /\(\*+ ?(const )?[A-Za-z_0-9]+(\[[0-9]*\])*\)/)) {
        text = substr(text, RSTART, RLENGTH)
        gsub(/[(*) ]|const |\[[0-9]*\]/, "", text)
        return text
    }
    gsub(/ *__attribute__\(\([^()]*(\([^()]*\))?\)\)/, "", text)
    sub(/ *:[0-9]+$/, "", text)
    gsub(/ *\[[0-9]*\]/, "", text)
    sub(/.*[ *}\t]/, "", text)
    return text
}

NF == 3 && /^[A-Za-z_0-9]+\t[0-9]+\t[0-9]+$/ { size[$1] = $2; next }
/^(struct|union) [A-Za-z_0-9]+ \{/ {
    depth = 1
    members[1] = ""
    kind = $1 == "struct" ? "structure" : "union"
    tag = $2
    is_known = 1
    next
}
depth == 0 { next }
/<ERROR/ { is_known = 0 }
/^\t*\/\*/ || /^[ \t]*$/ { next }
/^}/ {
    if (is_known) print kind " " tag " size " size[tag] members[1]
    depth = 0
    next
}
/^\t+(const |volatile )*(struct|union|enum) ?([A-Za-z_0-9]+ )?\{$/ { members[++depth] = ""; inner[depth] = $0 !~ /enum/; next }
/;/ {
    # where it begins: the byte and, after a colon, the bit; a line without a place is no member
    if (!match($0, /\/\* *[0-9]+(:[ 0-9]+)? +[0-9]+ \*\/$/)) {
        if (/^\t+}/) depth--
        next
    }
    place = substr($0, RSTART + 2, RLENGTH - 4)
    text = substr($0, 1, RSTART - 1)
    sub(/;[ \t]*$/, "", text)
    bit = 8 * place
    is_field = sub(/^[^:]*:/, "", place)
    if (is_field) bit += place
    width = 0
    if (is_field) { width = text; sub(/.*:/, "", width) }
    name = named(text)
    if (text ~ /^\t+}/) {
        below = inner[depth] ? members[depth] : ""
        depth--
        if (name == "") { members[depth] = members[depth] below; next }
    }
    if (name != "") members[depth] = members[depth] " " name "@" bit ":" (width + 0)
}
