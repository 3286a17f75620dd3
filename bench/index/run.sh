#!/usr/bin/env bash
# Times proved sets of operations against sets in plain Rust (plain.rs: a list that rises by id, and a map of what
# segments show), both built for the processor that Rattle builds for: this many single inserts with the making of the
# operations, two thirds of them each in a new segment and the others over what a segment shows; the join of a first set
# of six tenths of them into an empty one, and then of two more, which lie after it or overlap. Needs rt and rustc, and
# takes some minutes.
#
# The plain program takes a set over where it holds none, so that its first join takes no time.
#
# The two are run turn about, and of each the least time of a round counts. The exit status is 1 where the two show
# different ids, or a job but the first join takes the proved program more than 3 times as long as the plain one.
#
# usage: run.sh [OPERATIONS] [TURNS]
set -euo pipefail
here=$(cd "$(dirname "$0")" && pwd)
. "$here/../head.sh"
count=${1:-100000}
turns=${2:-5}
rounds=5

echo "building"
build_both

for _ in $(seq "$turns"); do
    "$plain" "$count" "$rounds" >>"$work/plain.out"
    "${proved[@]}" "$count" "$rounds" >>"$work/proved.out"
done
if [ "$(grep -hv inserts "$work"/{plain,proved}.out | sort -u | wc -l)" != 1 ]; then
    echo "the two show different ids"
    exit 1
fi

# The least number after a word in a file of outputs.
least() { sed -n "s/.*\b$2 \([0-9]*\).*/\1/p" "$1" | sort -n | head -n 1; }

status=0
for job in inserts first apart overlapping; do
    awk -v job="$job" -v count="$count" -v plain="$(least "$work/plain.out" "$job")" \
        -v proved="$(least "$work/proved.out" "$job")" 'BEGIN {
            printf "%s of %d: plain %d us, proved %d us", job, count, plain, proved
            if (job == "first") { print ""; exit 0 }
            printf ", ratio %.2f\n", proved / plain
            exit proved > 3 * plain
        }' || status=1
done
exit "$status"
