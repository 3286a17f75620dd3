#!/usr/bin/env python3
"""Measures `usfm_team` where texts are left out against a plain Rust program of the same jobs, turn about in one run.

    run.py [PROGRAM]      by default the program that `./build` leaves

The files are those of generate.py: a project of 100,000 operations, half of them replaced. The job `thin` leaves out
the replaced texts; `receive` takes in the bundle of another copy that did; `send` writes all operations of the thinned
project. The plain program lends texts from the files that it read and writes operations by their bytes, to `send` those
of the project's bundle as they are, once they are judged. Told are the least wall time, the least time of the processor
and the peak of resident memory of several runs, and the bytes of the project's file before and after the thinning. The
files lie in /dev/shm where it is there, so that no disk is measured. The exit status is 1 where the two programs write
different outputs or projects, or where the thinned project is not the one that receives the thinned bundle.
"""
import os
import sys
import tempfile

HERE = os.path.dirname(os.path.abspath(__file__))
sys.path.insert(0, os.path.dirname(HERE))
from programs import Files, agreed, built, bytes_of, memory, plain_program


def compare(programs, words, files):
    """Prints the times and the peaks of both programs, and answers the project after these words."""
    least, peaks, (_, _, project) = agreed(programs, words, files)
    for label, ours, plain in zip(("wall", "processor"), *least):
        print("%-8s %-10s %8.1f ms   plain %8.1f ms   %5.2f" % (words[0], label, ours * 1e3, plain * 1e3, ours / plain))
    print("%-8s %-10s %8d KB   plain %8d KB   %5.2f" % (words[0], "memory", *peaks, peaks[0] / peaks[1]))
    return project


def main():
    program = built(sys.argv[1:])
    with tempfile.TemporaryDirectory() as work, tempfile.TemporaryDirectory(dir=memory()) as folder:
        programs = [program, plain_program(work, HERE)]
        files = Files(os.path.join(HERE, "generate.py"), folder)
        thinned = compare(programs, ["thin", files.copy], files)
        print("the project's file: %d bytes, thinned %d" % (len(bytes_of(files.project)), len(thinned)))
        received = compare(programs, ["receive", files.copy, files.named("thinned")], files)
        if received != thinned:
            sys.exit("receive: the project is not the thinned one")
        with open(files.project, "wb") as out:
            out.write(thinned)
        compare(programs, ["send", files.copy], files)


main()
