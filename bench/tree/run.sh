#!/usr/bin/env bash
# Times the proved reading of a style sheet and of a text's tree against a plain reader in Rust of the same tree
# (plain.rs), both built for the processor that Rattle builds for, over a generated sheet of 250 markers and two
# generated texts: prose, and words each in a pair of marks. Needs rt, rustc and awk, and takes a few minutes.
#
# The two are run turn about, and of each the least time of a round counts. The exit status is 1 where
# the two find different trees, the proved tree takes more than 2 times as long, or the proved sheet
# more than 5 ms.
#
# usage: run.sh [BYTES] [TURNS]
set -euo pipefail
here=$(cd "$(dirname "$0")" && pwd)
. "$here/../head.sh"
bytes=${1:-2000000}
turns=${2:-8}
rounds=20

# A sheet in the manner of usfm.sty: the markers of the texts and others, each with a record of 14 lines.
make_sheet() {
    awk '
        function record(marker, closer, kind) {
            printf "\\Marker %s\n", marker
            if (closer != "") printf "\\Endmarker %s\n", closer
            printf "\\Name %s - the style of a marker\n\\Description A marker of the sheet # in short\n", marker
            printf "\\OccursUnder p q1 q2 li1 NEST\n\\Rank 4\n\\TextType VerseText\n\\TextProperties publishable vernacular\n"
            printf "\\StyleType %s\n\\FontSize 12\n\\Justification Left\n\\SpaceBefore 8\n\\Color 0\n\n", kind
        }
        BEGIN {
            print "# a generated sheet"
            split("id c p s", paragraphs)
            for (i = 1; i <= 4; i++) record(paragraphs[i], "", "Paragraph")
            record("v", "", "Character")
            split("w nd add ft", characters)
            for (i = 1; i <= 4; i++) record(characters[i], characters[i] "*", "Character")
            record("f", "f*", "Note")
            record("qt-s", "qt-e", "Milestone")
            for (i = 1; i <= 239; i++) record("z" i, i % 2 ? "z" i "*" : "", i % 2 ? "Character" : "Paragraph")
        }'
}

echo "building"
make_sheet >"$work/sheet"
make_text prose "$bytes" >"$work/prose"
make_text marks "$bytes" >"$work/marks"
build_both

# A run prints the time of the sheet before that of the tree.
column=2
limit=2
for text in prose marks; do
    compare "$text" "$work/sheet" "$work/$text"
done
awk -v size="$(wc -c <"$work/sheet")" -v plain="$(least "$work/prose.plain" 1)" \
    -v proved="$(least "$work/prose.proved" 1)" 'BEGIN {
        printf "sheet: %d bytes, 250 markers, plain %d us, proved %d us\n", size, plain / 1000, proved / 1000
        exit proved > 5000000
    }' || status=1
exit "$status"
