#!/usr/bin/env bash
# Times the proved check of a book against a plain checker in Rust (plain.rs), both built for the processor that Rattle
# builds for, over a generated sheet and generated texts of a size and of ten times the size: prose, words each in a
# pair of marks, and prose with faults. Needs rt, rustc and awk, and takes a few minutes.
#
# A last text has one mark alone, of a style with as many bytes of words in OccursUnder. The two are not compared on it,
# since the proved sheet has made a set of such words when it is read, and looks them up in next to no time.
#
# The plain checker walks the marks with a stack of the open nodes. So does the proved one, and then it goes over the
# tokens: it keeps six bytes for each mark, and no tree.
#
# The two are run turn about, and of each the least time of a round counts. How the work grows is measured by
# processes of one round, by their instructions where valgrind is there to count them. The exit status is 1 where the
# two find different things, the proved check takes more than 4 times as long, or ten times the text or the words more
# than 12 times as much.
#
# usage: run.sh [BYTES] [TURNS]
set -euo pipefail
here=$(cd "$(dirname "$0")" && pwd)
. "$here/../head.sh"
bytes=${1:-250000}
turns=${2:-8}
rounds=20

# A sheet of the markers of the texts.
make_sheet() {
    awk '
        function record(marker, closer, under, kind) {
            printf "\\Marker %s\n", marker
            if (closer != "") printf "\\Endmarker %s\n", closer
            if (under != "") printf "\\OccursUnder %s\n", under
            printf "\\StyleType %s\n\n", kind
        }
        BEGIN {
            split("id c p s", paragraphs)
            for (i = 1; i <= 4; i++) record(paragraphs[i], "", "", "Paragraph")
            record("v", "", "", "Character")
            split("w nd add", characters)
            for (i = 1; i <= 3; i++) record(characters[i], characters[i] "*", "p NEST", "Character")
            record("ft", "ft*", "f", "Character")
            record("f", "f*", "p", "Note")
            record("qt-s", "qt-e", "", "Milestone")
        }'
}

# The sheet with one record more, whose OccursUnder has this many bytes of words, none of which allows the node.
with_words() {
    cat "$work/sheet"
    awk -v size="$1" 'BEGIN {
        printf "\\Marker em\n\\Endmarker em*\n\\OccursUnder"
        for (n = 0; n < size; n += 3) printf " zz"
        printf "\n\\StyleType Character\n"
    }'
}

# The text with some marks unknown, numbers lost, bridges and closing marks lost.
with_faults() {
    awk '{
        if (NR % 7 == 0) sub(/^\\v [0-9]+/, "&-" (NR % 40))
        if (NR % 11 == 0) sub(/\\nd\*/, "")
        if (NR % 13 == 0) sub(/\\f\*/, "")
        if (NR % 17 == 0) sub(/^\\v [0-9]+/, "\\v")
        if (NR % 19 == 0) sub(/ /, " \\zz ")
        print
    }'
}

echo "building"
make_sheet >"$work/sheet"
for size in "$bytes" "$((10 * bytes))"; do
    make_text prose "$size" >"$work/prose.$size"
    make_text marks "$size" >"$work/marks.$size"
    with_faults <"$work/prose.$size" >"$work/faults.$size"
done
for size in "$bytes" "$((10 * bytes))"; do with_words "$size" >"$work/words.$size"; done
printf '\\p \\em a\\em*' >"$work/one"
build_both

limit=4
for text in prose marks faults; do
    for size in "$bytes" "$((10 * bytes))"; do
        compare "$text.$size" "$work/sheet" "$work/$text.$size"
        run_once "$text.$size" "$work/sheet" "$work/$text.$size"
    done
    tell_growth "$text"
done
for size in "$bytes" "$((10 * bytes))"; do
    run_once "words.$size" "$work/words.$size" "$work/one"
done
tell_growth words
exit "$status"
