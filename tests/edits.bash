# What the scripts of the edits share: they split tests/c/edits.txt, and build the two libraries of an edit. A script sources
# common.bash first.

# cut_edits: splits the table into the folders edits/1, edits/2 and so on, which have the files
#   name                        the name of the edit
#   old_1.c, new_1.c, old_2.c.. the sources
#   old.map, new.map            the version scripts, if there are any
#   old.options, new.options    options for the compiler
#   answers                     the answers with their rows, pairs and alike types
#   abidiff                     why abidiff answers something else, if it does
# It sets `edits` to the number of edits.
cut_edits() {
    mkdir edits
    awk '
        function both(text, which) {
            if (which != "+") print text >(folder "/old" file)
            if (which != "-") print text >(folder "/new" file)
        }
        /^#/ || $0 == "" { next }
        sub(/^case /, "") {
            folder = "edits/" ++count
            system("mkdir " folder)
            unit = 1
            file = "_1.c"
            print >(folder "/name")
            next
        }
        $0 == "unit" { file = "_" ++unit ".c"; next }
        $0 == "map" { file = ".map"; next }
        /^[-+ ]/ { both(substr($0, 2), substr($0, 1, 1)); next }
        sub(/^with /, "") { print >(folder "/old.options"); print >(folder "/new.options"); next }
        sub(/^old-with /, "") { print >(folder "/old.options"); next }
        sub(/^new-with /, "") { print >(folder "/new.options"); next }
        sub(/^abidiff /, "") { print >(folder "/abidiff"); next }
        /^(yes|no|pair|alike|[XL][0-9]+)( |$)/ { print >(folder "/answers"); next }
        { print "line " NR " of the table of edits is none: " $0 >"/dev/stderr"; failed = 1 }
        END { exit failed }' "$sources/edits.txt" || fail "the table of edits has faults"
    edits=$(find edits -mindepth 1 -maxdepth 1 | wc -l)
}

# build_edit EDIT COMPILER OPTION..: builds edits/EDIT/old.so and edits/EDIT/new.so.
build_edit() {
    local folder=edits/$1 compiler=$2 side options
    shift 2
    for side in old new; do
        options=$(cat "$folder/$side.options" 2>/dev/null || true)
        [ ! -f "$folder/$side.map" ] || options="$options -Wl,--version-script=$folder/$side.map"
        # Unquoted on purpose: each option is a word.
        "$compiler" -shared -nostdlib -fPIC -w -Wno-psabi -g "$@" $options -o "$folder/$side.so" "$folder/${side}"_*.c
    done
}

# answer_of EDIT WORD..: prints the answer to an edit for a compiler and its options, with the lines below it. An answer that names
# words applies only if all of them are given. Prints nothing if no answer applies, or several.
answer_of() {
    local edit=$1
    shift
    awk -v given="$*" '
        BEGIN { count = split(given, word, " "); for (i = 1; i <= count; i++) has[word[i]] = 1 }
        /^(yes|no)( |$)/ {
            taken = 1
            for (i = 2; i <= NF; i++) if (!($i in has)) taken = 0
            answers += taken
            if (taken) { text = text $1 "\n"; next }
        }
        taken { text = text $0 "\n" }
        END { if (answers == 1) printf "%s", text }' "edits/$edit/answers"
}
