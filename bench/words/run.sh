#!/usr/bin/env bash
# Times the proved list of a book's words against a plain list in Rust with std alone (plain.rs), both built for the
# processor that Rattle builds for, over a sheet and generated psalters of a size and of ten times the size. The plain
# list keeps the words in a map. It tests each word for Normalization Form C, which the psalters are in. Needs rt, rustc
# and awk, and takes some minutes.
#
# The two are run turn about, and of each the least time of a round counts. How the work grows is measured by
# processes of one round, by their instructions where valgrind is there to count them. The exit status is 1 where the
# two list different words, the proved list takes more than 1.5 times as long, or ten times the text more than 12 times
# as much.
#
# usage: run.sh [BYTES] [TURNS]
set -euo pipefail
here=$(cd "$(dirname "$0")" && pwd)
. "$here/../head.sh"
. "$here/../psalters.sh"

echo "building"
make_psalters
build_both

for size in "$bytes" "$((10 * bytes))"; do
    compare "psalter.$size" "$work/sheet" "$work/psalter.$size"
    run_once "psalter.$size" "$work/sheet" "$work/psalter.$size"
done
tell_growth psalter
exit "$status"
