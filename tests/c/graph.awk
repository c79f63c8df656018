# Reads what tool_graph_lines prints, and prints a line for each fact of it, in the form of kinds.awk:
#
#     structure KEY size BYTES align BYTES        the same for a union; an enumeration has no alignment
#     KEY member NUMBER NAME bit BIT width BITS DESCRIPTION size BYTES
#     KEY enumerator NUMBER NAME VALUE
#     function KEY params COUNT [variadic]
#     KEY result DESCRIPTION size BYTES
#     KEY param NUMBER DESCRIPTION size BYTES
#     variable NAME [typedef:NAME ..] align BYTES DESCRIPTION size BYTES
#
# A key is a tag, or the key of a type followed by `.NAME` for the nameless type of its member NAME.
function described(n,    elements) {
    if (kind[n] == "array") {
        # an array of arrays is one array of all their elements, as it is in the debug information of gcc
        for (elements = 1; kind[n] == "array"; n = to[n, 1]) elements *= count[n]
        return "array " elements " of " described(n)
    }
    if (kind[n] == "vector") return "vector " count[n] " of " described(to[n, 1])
    return kind[n] == "scalar" ? group[n] : kind[n]
}

function fact(line, n) { print line " " described(n) " size " size[n] }

function function_facts(key, n,    k) {
    print "function " key " params " (parts[n] - 1) (variadic[n] ? " variadic" : "")
    for (k = 1; k <= parts[n]; k++) fact(key " " word[n, k] (k > 1 ? " " (k - 1) : ""), to[n, k])
}

# The nameless type of a member; for an array that of its elements, and for a pointer that of its target.
function inner_facts(key, n,    pointed) {
    while (labels[n] == "" && (kind[n] == "array" || kind[n] == "pointer" && !pointed)) {
        pointed = pointed || kind[n] == "pointer"
        n = to[n, 1]
    }
    if (kind[n] == "function" && pointed && labels[n] == "") function_facts(key, n)
    if ((kind[n] == "structure" || kind[n] == "union" || kind[n] == "enumeration") && tag[n] == "-" && labels[n] !~ /typedef/)
        type_facts(key, n)
}

function type_facts(key, n,    k) {
    if (declared[n]) { print kind[n] " " key " declared"; return }
    print kind[n] " " key " size " size[n] (kind[n] == "enumeration" ? "" : " align " align[n])
    for (k = 1; k <= parts[n]; k++) {
        if (word[n, k] == "enumerator") { print key " enumerator " k " " name[n, k] " " value[n, k]; continue }
        fact(key " member " k " " name[n, k] " bit " bit[n, k] " width " width[n, k], to[n, k])
        inner_facts(key "." name[n, k], to[n, k])
    }
}

$1 == "export" { entry[$2] = $4; next }
$1 == "node" {
    n = $2
    order[++nodes] = n
    kind[n] = $3
    size[n] = $5
    align[n] = $7
    count[n] = $9
    for (i = 10; $i != "tag"; i++) {
        if ($i == "group") group[n] = $(++i)
        if ($i == "declared") declared[n] = 1
        if ($i == "variadic") variadic[n] = 1
    }
    tag[n] = $(i + 1)
    # those with a name
    for (i += 3; i <= NF; i++) if ($i !~ /:-$/) labels[n] = labels[n] " " $i
    next
}
{
    k = ++parts[n]
    word[n, k] = $1
    to[n, k] = $NF
}
$1 == "member" { name[n, k] = $2; bit[n, k] = $4; width[n, k] = $6 }
$1 == "enumerator" { name[n, k] = $2; value[n, k] = $3 }

END {
    for (i = 1; i <= nodes; i++) {
        n = order[i]
        if (tag[n] != "-" && !declared[n]) defined[kind[n], tag[n]] = 1
    }
    for (i = 1; i <= nodes; i++) {
        n = order[i]
        if (tag[n] != "-" && !(declared[n] && ((kind[n], tag[n]) in defined))) type_facts(tag[n], n)
    }
    for (export in entry) {
        n = entry[export]
        if (kind[n] == "function") { function_facts(export, n); continue }
        passed = ""
        pieces = split(labels[n], piece, " ")
        for (i = 1; i <= pieces; i++) if (piece[i] ~ /^typedef:/) passed = passed " " piece[i]
        fact("variable " export passed " align " align[n], n)
    }
}
