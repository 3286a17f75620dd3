#!/bin/sh
# Proves and builds the proved program of the benches of single calls: crates/call_times, whose first word is the job,
# which is the name of the bench's folder. It stands in crates/call_times/out, where rt keeps what it has built.
#
# usage: build_proved.sh
cd "$(dirname "$0")/../crates/call_times" || exit 2
said=$(rt run </dev/null 2>&1) && exit
echo "$said" | tail -n 30
exit 1
