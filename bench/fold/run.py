#!/usr/bin/env python3
"""Measures `usfm_team fold` against the plain Rust program of the same job, turn about in one run.

    run.py [OPERATIONS ..]      by default 10000 100000

The program is the one that `./build` leaves; the plain one, built by bench/build_plain.sh, lends names and texts
from what it read, judges each bundle, walks all of them side by side, and keeps the operations of the one book alone.
Each job runs several times, and the least wall time counts. The peak of resident memory is that of one more run below
`/usr/bin/time`: a child of this script would begin with the script's own. The job `read and join` asks for a book that
has no operation, so that both programs read, judge and join all and write nothing; `whole` also exports the first book.
"""
import os
import subprocess
import sys
import tempfile
import time

HERE = os.path.dirname(os.path.abspath(__file__))
sys.path.insert(0, os.path.dirname(HERE))
from programs import PROGRAM, TOP, peak, plain_program

TURNS = 15


def once(command, stream):
    """Wall seconds, output and status of one run."""
    with open(stream, "rb") as source, tempfile.TemporaryFile() as out:
        start = time.perf_counter()
        status = subprocess.run(command, stdin=source, stdout=out, stderr=subprocess.DEVNULL).returncode
        wall = time.perf_counter() - start
        out.seek(0)
        return wall, (out.read(), status)


def peak_on(command, stream):
    with open(stream, "rb") as source:
        return peak(command, source)


def compare(label, ours, plain, stream):
    commands = {"ours": ours, "plain": plain}
    walls = {"ours": [], "plain": []}
    answers = {}
    for _ in range(TURNS):
        for name, command in commands.items():
            wall, answers[name] = once(command, stream)
            walls[name].append(wall)
    if answers["ours"] != answers["plain"]:
        sys.exit("%s: the two programs answer differently" % label)
    ours_wall, plain_wall = min(walls["ours"]), min(walls["plain"])
    ours_peak, plain_peak = peak_on(ours, stream), peak_on(plain, stream)
    print("%-28s %8.3f s %7d KB   plain %8.3f s %7d KB   wall %.2f  memory %.2f"
          % (label, ours_wall, ours_peak, plain_wall, plain_peak, ours_wall / plain_wall, ours_peak / plain_peak))


def main():
    counts = [int(word) for word in sys.argv[1:]] or [10_000, 100_000]
    subprocess.run([os.path.join(TOP, "build")], check=True)
    with tempfile.TemporaryDirectory() as work:
        plain = plain_program(work, HERE)
        for count in counts:
            stream = os.path.join(work, "stream")
            with open(stream, "wb") as out:
                subprocess.run([os.path.join(HERE, "generate.py"), str(count)], stdout=out, check=True)
            for label, book in (("read and join", "ZZZ"), ("whole", "MAT")):
                compare("%d %s" % (count, label), [PROGRAM, "fold", book], [plain, book], stream)


main()
