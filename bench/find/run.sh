#!/usr/bin/env bash
# Times the proved search in a book against a plain search in Rust with std alone (plain.rs), both built for the
# processor that Rattle builds for, over a sheet and generated psalters of a size and of ten times the size: for needles
# that are in most lines, in some verses, in few, in attributes alone, and nowhere. Needs rt, rustc and awk, and takes
# some minutes.
#
# The two are run turn about, and of each the least time of a round counts. How the work grows is measured by
# processes of one round, by their instructions where valgrind is there to count them. The exit status is 1 where the
# two find different hits, the proved search takes more than 1.5 times as long, or ten times the text more than 12 times
# as much.
#
# usage: run.sh [BYTES] [TURNS]
set -euo pipefail
here=$(cd "$(dirname "$0")" && pwd)
. "$here/../head.sh"
. "$here/../psalters.sh"

echo "building"
make_psalters
build_both

# What most lines have, what some verses have, what few have, what attributes alone have, and what nothing has.
for needle in e LORD lázét lemma Selah; do
    for size in "$bytes" "$((10 * bytes))"; do
        compare "$needle.$size" "$work/sheet" "$work/psalter.$size" "$needle"
        run_once "$needle.$size" "$work/sheet" "$work/psalter.$size" "$needle"
    done
    tell_growth "$needle"
done
exit "$status"
