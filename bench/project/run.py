#!/usr/bin/env python3
"""Measures `usfm_team` on a project against a plain Rust program of the same jobs, turn about in one run.

    run.py [PROGRAM]      by default the program that `./build` leaves

The plain program is built by bench/build_plain.sh, the files are those of generate.py: a book of about 1,000 verses is
imported into a project of 66 books, a bundle of 100 operations is received by it, and a book is exported from it. Each
job runs several times on a fresh copy of the project. The table has the least wall time, the least time of the
processor, which other work disturbs less, and the peak of resident memory of one more run below `/usr/bin/time`: a
child of this script would begin with the script's own. The files lie in /dev/shm where it is there, so that no disk is
measured.

The plain program lends names and texts from the files that it read. For an import or an export it looks at the segments
of one book alone, and for a receive at none: it joins the bytes of the operations. What an index of all segments takes
is measured apart, as the plain program's `index` without its `load`, and each quotient of times is there a second time
with that added to the plain program. The exit status is 1 where the two programs write different outputs or projects,
or where a book that was imported is not exported again byte for byte.
"""
import os
import subprocess
import sys
import tempfile

HERE = os.path.dirname(os.path.abspath(__file__))
sys.path.insert(0, os.path.dirname(HERE))
from programs import Files, agreed, built, bytes_of, memory, plain_program, turn_about

BOOK = "JOB"


def index_seconds(plain, files):
    """What the plain program takes for an index of all segments, after it has loaded the project."""
    (load, index), _ = turn_about([[plain, word, files.copy] for word in ("load", "index")], files)
    return [max(0, whole - part) for whole, part in zip(index, load)]


def compare(programs, words, index, files):
    least, peaks, _ = agreed(programs, words, files)
    for label, ours, plain, share in zip(("wall", "processor"), *least, index):
        print("%-8s %-10s %8.1f ms   plain %8.1f ms   %5.2f   with an index %5.2f"
              % (words[0], label, ours * 1e3, plain * 1e3, ours / plain, ours / (plain + share)))
    print("%-8s %-10s %8d KB   plain %8d KB   %5.2f" % (words[0], "memory", *peaks, peaks[0] / peaks[1]))


def check_import(program, files):
    """Whether a book that a program imports is the one that it then exports."""
    files.fresh()
    book = files.named("book.usfm")
    subprocess.run([program, "import", files.copy, book], stdout=subprocess.DEVNULL, check=True)
    text = subprocess.run([program, "export", files.copy, BOOK], stdout=subprocess.PIPE, check=True).stdout
    if text != bytes_of(book):
        sys.exit("%s: the export after an import is not the file" % program)


def main():
    program = built(sys.argv[1:])
    with tempfile.TemporaryDirectory() as work, tempfile.TemporaryDirectory(dir=memory()) as folder:
        plain = plain_program(work, HERE)
        programs = [program, plain]
        files = Files(os.path.join(HERE, "generate.py"), folder)
        for each in programs:
            check_import(each, files)
        index = index_seconds(plain, files)
        print("an index in plain Rust: wall %.1f ms, processor %.1f ms" % tuple(part * 1e3 for part in index))
        for word, last in (("import", files.named("book.usfm")), ("receive", files.named("delta")), ("export", BOOK)):
            compare(programs, [word, files.copy, last], index, files)


main()
