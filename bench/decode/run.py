#!/usr/bin/env python3
"""Measures `bundle_codec::decode` against a plain Rust program that judges the same, turn about in one run.

    run.py [OPERATIONS ..]      by default 10000 100000: how many the bundle has

The proved call is built by bench/build_proved.sh, the plain one by bench/build_plain.sh (plain.rs). Both judge every
field, that each text is UTF-8, and that it fits its book and key; neither copies anything. The least time of a round
counts. The exit status is 1 where the two find different bundles, or the proved one takes more than twice as long.
"""
import os
import sys
import tempfile

HERE = os.path.dirname(os.path.abspath(__file__))
sys.path.insert(0, os.path.dirname(HERE))
from pairs import build, turn_about, write_bundles

TURNS = 7
ROUNDS = "20"


def compare(count, programs, name):
    write_bundles(count, [name])
    least, _ = turn_about(programs, [name, ROUNDS], TURNS)
    ratio = least[0] / least[1]
    print("%7d: proved %8.3f ms   plain %8.3f ms   time %.2f" % (count, least[0] / 1e6, least[1] / 1e6, ratio))
    return ratio <= 2


def main():
    counts = [int(word) for word in sys.argv[1:]] or [10_000, 100_000]
    with tempfile.TemporaryDirectory() as work:
        name = os.path.join(work, "bundle")
        programs = build(work, HERE)
        held = [compare(count, programs, name) for count in counts]
    sys.exit(not all(held))


main()
