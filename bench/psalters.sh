# Sourced by run.sh of a bench over psalters, after head.sh. What run.sh was given is the size and how many turns; a run
# has some rounds.
bytes=${1:-250000}
turns=${2:-8}
rounds=20

# A sheet of the markers of the psalters.
make_sheet() {
    awk '
        function record(marker, closer, kind, type) {
            printf "\\Marker %s\n", marker
            if (closer != "") printf "\\Endmarker %s\n", closer
            printf "\\StyleType %s\n", kind
            if (type != "") printf "\\TextType %s\n", type
        }
        BEGIN {
            split("id c s d", heads)
            for (i = 1; i <= 4; i++) record(heads[i], "", "Paragraph", "Other")
            split("p q1 q2", lines)
            for (i = 1; i <= 3; i++) record(lines[i], "", "Paragraph", "VerseText")
            record("v", "", "Character", "VerseNumber")
            split("w nd ft", characters)
            for (i = 1; i <= 3; i++) record(characters[i], characters[i] "*", "Character", "")
            record("f", "f*", "Note", "")
            record("qt-s", "qt-e", "Milestone", "")
        }'
}

# Makes a sheet, `$work/sheet`, and psalters of the size and of ten times the size, `$work/psalter.SIZE`.
make_psalters() {
    local size
    make_sheet >"$work/sheet"
    for size in "$bytes" "$((10 * bytes))"; do
        awk -v size="$size" -f "$top/bench/psalter.awk" >"$work/psalter.$size"
    done
}
