#!/usr/bin/env python3
"""Counts the instructions of each command in a project of 66 books, and in one that is ten times as large.

    run.py [--program PATH] [WORD ..]      the commands with these names, or all

The program is the one that is named, else the one that `./build` leaves; valgrind counts. In the small project each of
some 31,000 verses has one text. In the great one a team has replaced each of them nine times and left no text out, so
its books read much the same: some 310,000 operations in 60 MB.
"""
import argparse
import os
import random
import shutil
import subprocess
import sys
import tempfile

sys.dont_write_bytecode = True
TOP = os.path.dirname(os.path.dirname(os.path.dirname(os.path.abspath(__file__))))
sys.path.insert(0, os.path.join(TOP, "bench"))
sys.path.insert(0, os.path.join(TOP, "bench/project"))

import counting
from generate import first_text, segments, verse_text
from operations import bundle, operation

ROUNDS = 10
SEGMENT = "PSA 119:1"
EDIT = b"\\v 1 a new text\n"

# Each command with its words, and what it reads from standard input.
COMMANDS = {
    "export": (["p", "PSA"], b""),
    "shown": (["p", SEGMENT], b""),
    "history": (["p", SEGMENT], b""),
    "changes": (["p", "--since", "other.summary"], b""),
    "restore": (["p", "PSA", "--since", "other.summary"], b""),
    "report": (["p"], b""),
    "status": (["p"], b""),
    "progress": (["p"], b""),
    "page": (["p"], b""),
    "check": (["p", "PSA"], b""),
    "find": (["p", "PSA", "light"], b""),
    "words": (["p", "PSA"], b""),
    "edit": (["p", SEGMENT], EDIT),
    "edit-over": (["p", SEGMENT], EDIT),
    "import": (["p", "book.usfm"], b""),
    "receive": (["p", "lacked.bundle"], b""),
    "send": (["p"], b""),
    "summary": (["p"], b""),
    "delta": (["p", "other.summary"], b""),
    "thin": (["p"], b""),
    "sync": (["p", "texts"], b""),
}


def project(rounds: int) -> tuple[bytes, bytes]:
    """A project's file of so many texts of each verse, and a bundle of 100 edits that it lacks."""
    rng = random.Random(1)
    places = list(segments(rng))
    made, last, number = [], {}, 0
    for turn in range(rounds):
        for place in places:
            book, chapter, verse = place
            if turn and verse is None:
                continue
            number += 1
            text = verse_text(rng, verse) if turn else first_text(rng, place)
            named = [last[place]] if turn else []
            last[place] = (number, b"ana")
            made.append((last[place], operation(last[place], book, chapter, verse, named, text)))
    lacked = []
    for place in [it for it in places if it[2] is not None][::311]:
        number += 1
        ours = (number, b"ben")
        lacked.append((ours, operation(ours, *place, [last[place]], verse_text(rng, place[2]))))
    return b"USFMPJ1\n\x03ana" + bundle(made), bundle(lacked)


def answer(program: str, folder: str, *words: str) -> bytes:
    """What a command writes that is done in a folder."""
    return subprocess.run([program, *words], cwd=folder, check=True, capture_output=True).stdout


def laid_out(program: str, folder: str, rounds: int) -> None:
    """Lays a project and what the commands read beside it into a folder."""
    data, lacked = project(rounds)

    def write(name: str, content: bytes) -> None:
        with open(os.path.join(folder, name), "wb") as out:
            out.write(content)

    write("p", data)
    write("lacked.bundle", lacked)
    write("other.summary", answer(program, folder, "summary", "p"))
    verses = answer(program, folder, "export", "p", "JOB").split(b"\\v ")
    changed = [it.replace(b"light", b"lamp") if at % 30 == 0 else it for at, it in enumerate(verses)]
    write("book.usfm", b"\\v ".join(changed))
    os.mkdir(os.path.join(folder, "texts"))
    answer(program, folder, "sync", "p", "texts")


def counted(program: str, folder: str, name: str) -> float:
    """The millions of instructions of a command, on a copy of the folder."""
    words, given = COMMANDS[name]
    with tempfile.TemporaryDirectory() as work:
        here = os.path.join(work, "here")
        shutil.copytree(folder, here)
        log = os.path.join(work, "log")
        if name in ("delta", "changes", "restore"):
            answer(program, here, "receive", "p", "lacked.bundle")
        if name == "edit-over":
            shown = answer(program, here, "shown", "p", SEGMENT).decode()
            words = [*words, ":".join(shown.split()[1:3])]
        ran = subprocess.run([*counting.counting(log), program, name, *words], cwd=here, input=given, capture_output=True)
        if ran.returncode:
            sys.exit(f"{name} ends with status {ran.returncode}: {ran.stderr.decode()}")
        return counting.counted(log) / 1e6


def main() -> int:
    parser = argparse.ArgumentParser(usage="run.py [--program PATH] [WORD ..]")
    parser.add_argument("--program", help="the program, else the one of this repository")
    parser.add_argument("names", nargs="*", metavar="WORD", help="names of commands")
    options = parser.parse_args()
    unknown = [it for it in options.names if it not in COMMANDS]
    if unknown:
        parser.error(f"no command is named {unknown[0]}")
    program = options.program or os.path.join(TOP, "crates/usfm_team/out/usfm_team")
    if not options.program:
        subprocess.run([os.path.join(TOP, "build")], check=True)
    program = os.path.abspath(program)
    with tempfile.TemporaryDirectory() as small, tempfile.TemporaryDirectory() as great:
        laid_out(program, small, 1)
        laid_out(program, great, ROUNDS)
        size = [os.path.getsize(os.path.join(it, "p")) for it in (small, great)]
        print(f"| Command | {size[0]:,} bytes | {size[1]:,} bytes | Times |\n|---|---|---|---|")
        for name in options.names or COMMANDS:
            costs = [counted(program, it, name) for it in (small, great)]
            print(f"| {name} | {costs[0]:,.0f} M | {costs[1]:,.0f} M | {costs[1] / costs[0]:.1f} |", flush=True)
    return 0


if __name__ == "__main__":
    sys.exit(main())
