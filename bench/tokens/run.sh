#!/usr/bin/env bash
# Times the proved token iterator against a plain tokenizer in Rust with a like search (plain.rs), both built for the
# processor that Rattle builds for, over two generated texts: prose, and words each in a pair of marks. Needs rt, rustc
# and awk, and takes a minute or two.
#
# The two are run turn about, and of each the least time of a round counts. The exit status is 1 where
# the two count different tokens, or the proved one takes more than 1.5 times as long.
#
# usage: run.sh [BYTES] [TURNS]
set -euo pipefail
here=$(cd "$(dirname "$0")" && pwd)
. "$here/../head.sh"
bytes=${1:-8000000}
turns=${2:-12}
rounds=20

echo "building"
make_text prose "$bytes" >"$work/prose"
make_text marks "$bytes" >"$work/marks"
build_both

for text in prose marks; do
    compare "$text" "$work/$text"
done
exit "$status"
