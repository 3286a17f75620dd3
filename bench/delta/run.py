#!/usr/bin/env python3
"""Measures `Replica::delta` and `Replica::receive` against plain Rust, turn about in one run.

    run.py

The project is the one of 66 books of bench/project/generate.py, and its 100 later edits are what one replica has and
the other one lacks. The job `delta` writes them as a bundle for the other's summary, the job `receive` takes that
bundle in. The proved calls are built by bench/build_proved.sh, the plain ones by bench/build_plain.sh (plain.rs); both
keep what each segment shows. The plain one lends names and texts from the bundles, numbers the names as they come, and
writes operations by their bytes. Told are the least time of a round, and the peak of resident memory of a process that
holds the project twice. The exit status is 1 where the two programs write different deltas, or a proved call takes more
than 8 times as long.
"""
import os
import subprocess
import sys
import tempfile

HERE = os.path.dirname(os.path.abspath(__file__))
sys.path.insert(0, os.path.dirname(HERE))
from pairs import build, compare_jobs

ROUNDS = "20"


def files_of(work):
    """The names of the project as a bundle, without the head of its file, and of the edits."""
    subprocess.run([os.path.join(HERE, "../project/generate.py"), work], check=True)
    with open(os.path.join(work, "project"), "rb") as file:
        project = file.read()
    names = [os.path.join(work, "held"), os.path.join(work, "delta")]
    with open(names[0], "wb") as out:
        out.write(project[project.index(b"USFMSR1\n"):])
    return names


def main():
    with tempfile.TemporaryDirectory() as work:
        names = files_of(work)
        programs = build(work, HERE)
        held = compare_jobs(programs, [(job, [*names, job, ROUNDS]) for job in ("delta", "receive")], limit=8)
    sys.exit(not held)


main()
