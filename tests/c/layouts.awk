# Reads what tool_graph_lines prints, and prints a line for each defined structure and union with a tag: its kind, its tag, its size,
# and for each member its name, its bit and, if it is a bit field, its width.
function print_type() {
    if (line != "") print line
    line = ""
}

$1 == "node" {
    print_type()
    if (($3 == "structure" || $3 == "union") && !/ declared tag / && !/ tag - labels/) {
        match($0, / tag [^ ]+ labels/)
        line = $3 " " substr($0, RSTART + 5, RLENGTH - 12) " size " $5
    }
}
$1 == "member" && line != "" { line = line " " $2 "@" $4 ":" $6 }
END { print_type() }
