#!/usr/bin/env python3
"""Measures the program on inputs that are built to take long, and on ten times as much of each.

    run.py [--program PATH] [--instructions] [WORD ..]      the inputs whose names have all these words, or all inputs

The program is the one that is named, else the one that `./build` leaves. For each input the table has the bytes and
the least processor's time of several runs, of the small one and of the great one, and how many times as long the great
one took. More than 15 times is marked, and the exit status is then 1. Times below a hundredth of a second are mostly
those of beginning a program.

With --instructions the table has the instructions of one run in the place of times, as valgrind counts them, whatever
else runs; more than 12 times as many is marked then.
"""
import argparse
import os
import resource
import shutil
import subprocess
import sys
import tempfile

sys.dont_write_bytecode = True

from inputs import FAMILIES, Family, Input

TOP = os.path.dirname(os.path.dirname(os.path.dirname(os.path.abspath(__file__))))
sys.path.insert(0, os.path.join(TOP, "bench"))

import counting

MOST_TIMES = 15
MOST_TIMES_COUNTED = 12
# Runs of an input: more where they are short.
TURNS = 9
LONG = 1.0


def processor_seconds() -> float:
    used = resource.getrusage(resource.RUSAGE_CHILDREN)
    return used.ru_utime + used.ru_stime


def once(program: list[str], one: Input, folder: str) -> float:
    """The processor's time of one run, in a folder that has the input's files and nothing else."""
    for name in os.listdir(folder):
        path = os.path.join(folder, name)
        shutil.rmtree(path) if os.path.isdir(path) else os.remove(path)
    for name, data in one.files.items():
        with open(os.path.join(folder, name), "wb") as out:
            out.write(data)
    with open(os.path.join(folder, "given"), "wb+") as given:
        given.write(one.given)
        given.seek(0)
        before = processor_seconds()
        ran = subprocess.run([*program, *one.words], cwd=folder, stdin=given, stdout=subprocess.DEVNULL, stderr=subprocess.PIPE)
        after = processor_seconds()
    if (ran.returncode, ran.stderr) != (1 if one.fault else 0, one.fault):
        sys.exit(f"{one.words[0]} ends with status {ran.returncode} and answers {ran.stderr!r}")
    return after - before


def least(program: str, one: Input, folder: str) -> float:
    """The least processor's time of several runs."""
    seconds = [once([program], one, folder)]
    while len(seconds) < TURNS and sum(seconds) < LONG:
        seconds.append(once([program], one, folder))
    return min(seconds)


def counted(program: str, one: Input, folder: str) -> int:
    """The instructions of one run."""
    with tempfile.NamedTemporaryFile() as log:
        once([*counting.counting(log.name), program], one, folder)
        return counting.counted(log.name)


def measure(program: str, family: Family, folder: str, counts: bool) -> bool:
    """Prints a row of the table, and answers whether the great input took at most so many times as much as it may."""
    small, great = family.make(family.small), family.make(family.great)
    if counts:
        most, unit = MOST_TIMES_COUNTED, "M"
        small_cost, great_cost = (counted(program, it, folder) / 1e6 for it in (small, great))
    else:
        most, unit = MOST_TIMES, "s"
        small_cost, great_cost = (least(program, it, folder) for it in (small, great))
    times = great_cost / small_cost
    row = [
        family.what,
        f"{small.length():,}",
        f"{small_cost:.{1 if counts else 3}f} {unit}",
        f"{great.length():,}",
        f"{great_cost:.{1 if counts else 3}f} {unit}",
        f"{times:.1f}" + (f" **more than {most}**" if times > most else ""),
    ]
    print("| " + " | ".join(row) + " |", flush=True)
    return times <= most


def program_of_repository() -> str:
    """The program that is in this repository, built if need be."""
    subprocess.run([os.path.join(TOP, "build")], check=True)
    return os.path.join(TOP, "crates/usfm_team/out/usfm_team")


def main() -> int:
    parser = argparse.ArgumentParser(usage="run.py [--program PATH] [--instructions] [WORD ..]")
    parser.add_argument("--program", help="the program, else the one of this repository")
    parser.add_argument("--instructions", action="store_true", help="count instructions, and take no time")
    parser.add_argument("words", nargs="*", metavar="WORD", help="words in the names of the inputs")
    options = parser.parse_args()
    wanted = [it for it in FAMILIES if all(word in it.what for word in options.words)]
    if not wanted:
        lacking = [word for word in options.words if not any(word in it.what for it in FAMILIES)]
        parser.error(f"no input's name has {' and '.join(lacking or options.words)}")
    program = os.path.abspath(options.program or program_of_repository())
    cost = "Instructions" if options.instructions else "Time"
    print(f"| Input | Bytes | {cost} | Bytes | {cost} | Times |")
    print("|---|---|---|---|---|---|")
    with tempfile.TemporaryDirectory() as folder:
        within = [measure(program, it, folder, options.instructions) for it in wanted]
    return 0 if all(within) else 1


if __name__ == "__main__":
    sys.exit(main())
