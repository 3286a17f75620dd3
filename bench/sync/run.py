#!/usr/bin/env python3
"""Measures a team's day with folders of books' files: `usfm_team sync` beside git, turn about in one run.

    run.py CORPUS [PROGRAM]      by default the program that `./build` leaves

CORPUS is a folder with the books of a Bible as USFM files, which are copied under the names that Paratext gives. Measured
are: the first sync of all books into a new project, beside `import` of the same files and git's first commit; a sync of
nothing; and a day, in which two copies each change 100 verses, other ones, and exchange them. A day of `usfm_team` is
Ana's sync, her delta for Ben's summary, and Ben's sync with it, which takes his own changes in too; git's is both
commits, Ana's bundle, and Ben's fetch and merge. The least of the runs counts. The files lie on a disk, since what syncs
them is part of both. The exit status is 1 where a day loses a changed verse.
"""
import os
import random
import re
import shutil
import subprocess
import sys
import tempfile
import time
from pathlib import Path

TOP = Path(__file__).resolve().parent.parent.parent
RUNS, EDITS = 3, 100
VERSE = re.compile(rb"\\v \d")
QUIET = {"GIT_CONFIG_GLOBAL": "/dev/null", "GIT_CONFIG_SYSTEM": "/dev/null", "GIT_AUTHOR_NAME": "t", "GIT_AUTHOR_EMAIL": "t@t"}
ENVIRONMENT = {**os.environ, **QUIET, "GIT_COMMITTER_NAME": "t", "GIT_COMMITTER_EMAIL": "t@t"}


def timed(folder: Path, *words) -> float:
    began = time.perf_counter()
    subprocess.run(words, cwd=folder, env=ENVIRONMENT, stdout=subprocess.DEVNULL, check=True)
    return time.perf_counter() - began


def written(folder: Path, name: str, *words) -> float:
    began = time.perf_counter()
    with open(folder / name, "wb") as out:
        subprocess.run(words, cwd=folder, stdout=out, check=True)
    return time.perf_counter() - began


def verses(texts: Path) -> list[tuple[str, int]]:
    found = []
    for path in sorted(texts.iterdir()):
        if path.is_file():
            found += [(path.name, at) for at, line in enumerate(path.read_bytes().split(b"\n")) if VERSE.match(line)]
    return found


def change(texts: Path, places: list[tuple[str, int]], word: bytes) -> None:
    for name, at in places:
        lines = texts.joinpath(name).read_bytes().split(b"\n")
        lines[at] += b" " + word
        texts.joinpath(name).write_bytes(b"\n".join(lines))


def changed(texts: Path, places: list[tuple[str, int]], word: bytes) -> bool:
    return all(texts.joinpath(name).read_bytes().split(b"\n")[at].endswith(b" " + word) for name, at in places)


class Team:
    """`usfm_team` with a project and a folder."""

    def __init__(self, program: Path) -> None:
        self.program = program

    def begin(self, home: Path) -> float:
        subprocess.run([self.program, "init", "p", "ana"], cwd=home, check=True)
        return timed(home, self.program, "sync", "p", "texts")

    def clone(self, home: Path, other: Path) -> None:
        bundle = home / "all"
        written(home, "all", self.program, "send", "p")
        subprocess.run([self.program, "init", "p", "ben"], cwd=other, check=True)
        timed(other, self.program, "sync", "p", "texts", bundle)

    def day(self, ana: Path, ben: Path) -> list[float]:
        summary = written(ben, "summary", self.program, "summary", "p")
        mine = timed(ana, self.program, "sync", "p", "texts")
        bundle = written(ana, "delta", self.program, "delta", "p", ben / "summary")
        return [mine, summary + bundle, timed(ben, self.program, "sync", "p", "texts", ana / "delta")]


class Git:
    """git with a repository in the folder."""

    def begin(self, home: Path) -> float:
        texts = home / "texts"
        timed(texts, "git", "init", "-q", "-b", "m")
        return timed(texts, "git", "add", ".") + timed(texts, "git", "commit", "-qm", "first")

    def clone(self, home: Path, other: Path) -> None:
        shutil.rmtree(other / "texts")
        timed(other, "git", "clone", "-q", home / "texts", "texts")
        timed(home / "texts", "git", "tag", "base")

    def day(self, ana: Path, ben: Path) -> list[float]:
        mine = timed(ana / "texts", "git", "commit", "-qam", "edits")
        bundle = timed(ana / "texts", "git", "bundle", "create", "-q", ana / "delta", "base..m")
        theirs = timed(ben / "texts", "git", "commit", "-qam", "edits")
        fetched = timed(ben / "texts", "git", "fetch", "-q", ana / "delta", "m:ana")
        return [mine, bundle, theirs + fetched + timed(ben / "texts", "git", "merge", "-q", "-m", "merge", "ana")]


def apart(places: list[tuple[str, int]], chance: random.Random) -> tuple[list, list]:
    """Two lists of verses of which none stands near one of the other, as git wants it."""
    picked = chance.sample(places[::8], 2 * EDITS)
    return picked[:EDITS], picked[EDITS:]


def play(tool, corpus: Path, work: Path) -> tuple[list[float], bool]:
    shutil.rmtree(work, ignore_errors=True)
    homes = [work / name for name in ("ana", "ben")]
    for home in homes:
        home.mkdir(parents=True)
    ana, ben = homes
    ana.joinpath("texts").mkdir()
    for at, path in enumerate(sorted(corpus.glob("*.usfm")), 1):
        code = path.read_bytes()[4:7].decode()
        shutil.copy(path, ana / "texts" / f"{at:02}{code}ana.SFM")
    ben.joinpath("texts").mkdir()
    first = tool.begin(ana)
    # Ben's files have the same names, so that places in them are the same.
    for path in ana.joinpath("texts").glob("*.SFM"):
        shutil.copy(path, ben / "texts")
    tool.clone(ana, ben)
    mine, theirs = apart(verses(ana / "texts"), random.Random(1))
    change(ana / "texts", mine, b"ana")
    change(ben / "texts", theirs, b"ben")
    day = tool.day(ana, ben)
    is_kept = changed(ben / "texts", mine, b"ana") and changed(ben / "texts", theirs, b"ben")
    nothing = timed(ben, tool.program, "sync", "p", "texts") if isinstance(tool, Team) else 0.0
    return [first, nothing, *day], is_kept


def main() -> int:
    corpus = Path(sys.argv[1])
    program = Path(sys.argv[2] if len(sys.argv) > 2 else TOP / "crates/usfm_team/out/usfm_team").resolve()
    if len(sys.argv) < 3:
        subprocess.run([TOP / "build"], check=True)
    tools = {"usfm_team": Team(program), "git": Git()}
    least: dict[str, list[float]] = {}
    lost = []
    with tempfile.TemporaryDirectory(dir=".") as place:
        for _ in range(RUNS):
            for name, tool in tools.items():
                found, is_kept = play(tool, corpus, Path(place).resolve() / name)
                least[name] = [min(pair) for pair in zip(found, least.get(name, found))]
                lost += [] if is_kept else [name]
    for name, (first, nothing, *day) in least.items():
        parts = " ".join(f"{seconds * 1e3:.0f}" for seconds in day)
        print(f"{name:<10} first {first * 1e3:.0f} ms, nothing {nothing * 1e3:.0f} ms, day {sum(day) * 1e3:.0f} ms ({parts})")
    print(f"the day: {sum(least['usfm_team'][2:]) / sum(least['git'][2:]):.2f} of git's")
    for name in lost:
        print(f"{name} has lost a changed verse")
    return 1 if lost else 0


if __name__ == "__main__":
    sys.exit(main())
