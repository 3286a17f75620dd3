#!/usr/bin/env python3
"""Measures `Replica::summary` against plain Rust, turn about in one run.

    run.py [OPERATIONS ..]      by default 10000 100000

The operations of eight people came in random order, in bundles of 1,000 (generate.py). The proved call is built by
bench/build_proved.sh, the plain one by bench/build_plain.sh (plain.rs). The proved one starts from a set whose
operations hold their names, of up to 32 bytes, and looks a name up once for each run of it. The plain one starts from
operations that lend their names from the bundles, with the number of each name, which it got when it first came. Told
are the least time of a round, and the peak of resident memory of the process, which took the bundles in. The exit
status is 1 where the two programs make different summaries, or the proved one takes more than 8 times as long.
"""
import os
import subprocess
import sys
import tempfile

HERE = os.path.dirname(os.path.abspath(__file__))
sys.path.insert(0, os.path.dirname(HERE))
from pairs import build, compare_jobs

ROUNDS = "10"


def bundles_of(work, count):
    name = os.path.join(work, str(count))
    subprocess.run([os.path.join(HERE, "generate.py"), str(count), name], check=True)
    return name


def main():
    counts = [int(word) for word in sys.argv[1:]] or [10_000, 100_000]
    with tempfile.TemporaryDirectory() as work:
        names = [bundles_of(work, count) for count in counts]
        programs = build(work, HERE)
        held = compare_jobs(programs, [("%d operations" % count, [name, ROUNDS]) for count, name in zip(counts, names)], limit=8)
    sys.exit(not held)


main()
