#!/usr/bin/env python3
"""Measures `bundle_codec::join_bundles` against a plain Rust merge of the same bytes, turn about in one run.

    run.py [OPERATIONS ..]      by default 10000 100000: how many each of the two bundles has

The proved call is built by bench/build_proved.sh, the plain one by bench/build_plain.sh (plain.rs). Half of the
operations are in both bundles. The least time of a round counts, and the greatest resident memory of a process that
joins once, beside what the inputs and the output fill. The exit status is 1 where the two programs join to different
bytes, or the proved one takes more than 1.5 times as long.
"""
import os
import sys
import tempfile

HERE = os.path.dirname(os.path.abspath(__file__))
sys.path.insert(0, os.path.dirname(HERE))
from pairs import build, turn_about, write_bundles
from programs import peak

TURNS = 7
ROUNDS = "10"


def compare(count, programs, names):
    write_bundles(count, names)
    least, joined = turn_about(programs, [*names, ROUNDS], TURNS)
    peaks = [peak([*program, *names, "1"]) for program in programs]
    held = (sum(os.path.getsize(name) for name in names) + int(joined[0])) // 1024
    ratio = least[0] / least[1]
    print("%7d twice: proved %8.3f ms %7d KB   plain %8.3f ms %7d KB   time %.2f   inputs and output %d KB"
          % (count, least[0] / 1e6, peaks[0], least[1] / 1e6, peaks[1], ratio, held))
    return ratio <= 1.5


def main():
    counts = [int(word) for word in sys.argv[1:]] or [10_000, 100_000]
    with tempfile.TemporaryDirectory() as work:
        names = [os.path.join(work, "first"), os.path.join(work, "second")]
        programs = build(work, HERE)
        held = [compare(count, programs, names) for count in counts]
    sys.exit(not all(held))


main()
