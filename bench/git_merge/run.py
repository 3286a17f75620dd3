#!/usr/bin/env python3
"""Merges real chapters three ways, with `git merge-file` and with `usfm_team merge`, and counts what each gets wrong.

    run.py CORPUS [--program PATH] [--second] [--merges 200] [--seed 1]

CORPUS is a folder with the books of a Bible as USFM files. Each merge has one chapter of a book as BASE. Each side changes
one to five of its segments: a word of a verse, the order of two words, a word more, a verse that is gone, a paragraph that
begins before a verse. One side of five also saves the file in another manner: with CR LF, with blanks at the ends of its
lines, with U+FEFF at its front, or without the last line end. What a merge owes is read off the segments by the second
implementation of the rules (tests/fuzz/model): a segment has to have the text of the side that changed its wording, and is a
conflict where both changed it to different wordings. Counted are, of each tool:

- false: merges that it leaves in conflict, though no segment is in one;
- missed: merges that it calls clean, though a segment is in conflict, or has not the wording that it owes;
- no USFM: merges after which the file has lines that are none of the texts', or is not the book any more.

The table has a line for each tool: for git, for the program that is given, and with `--second` for the second implementation
of merges, which is slow. The exit status is 1 where one of the last two gets any merge wrong.
"""
import argparse
import random
import re
import subprocess
import sys
import tempfile
from pathlib import Path
from typing import Callable, NamedTuple

sys.dont_write_bytecode = True
TOP = Path(__file__).resolve().parent.parent.parent
sys.path[1:1] = [str(TOP / "tests/fuzz")]

from model import merging
from model.faults import Fault
from model.merging import Texts, texts_of, wording
from model.references import Key
from model.tokens import book_of

CHAPTER = re.compile(rb"^(?=\\c )", re.M)
MARK = b"\xef\xbb\xbf"
SIDES = ("ours", "theirs")


class Merge(NamedTuple):
    """The three files of a merge."""

    base: bytes
    ours: bytes
    theirs: bytes


class Outcome(NamedTuple):
    """What a tool answers: whether it calls the merge clean, and the file."""

    clean: bool
    text: bytes


# ---- the chapters and what the sides do to them


def chapters(corpus: Path) -> list[bytes]:
    """Each chapter of the corpus as a book's file, with its `\\id` line."""
    found = []
    for path in sorted(corpus.glob("*.usfm")):
        head, *parts = CHAPTER.split(path.read_bytes())
        identity = head.split(b"\n", 1)[0] + b"\n"
        found += [identity + part for part in parts]
    return found


def with_words(chance: random.Random, text: bytes, kind: float, vocabulary: list[bytes]) -> bytes:
    """A verse's text with a word changed, or one word more, or two words in each other's place. The lines stay."""
    words = text.split(b" ")
    plain = [at for at, word in enumerate(words) if at > 1 and re.fullmatch(rb"[^\\\n]+", word)]
    if len(plain) < 2:
        return text.rstrip(b"\n") + b" " + chance.choice(vocabulary) + b"\n"
    one, other = chance.sample(plain, 2)
    if kind < 0.5:
        words[one] = chance.choice(vocabulary)
    elif kind < 0.7:
        words.insert(one, chance.choice(vocabulary))
    else:
        words[one], words[other] = words[other], words[one]
    return b" ".join(words)


def edit(chance: random.Random, texts: Texts, key: Key, vocabulary: list[bytes]) -> None:
    """Changes one verse."""
    kind = chance.random()
    if kind < 0.8:
        texts[key] = with_words(chance, texts[key], kind, vocabulary)
    elif kind < 0.9:
        del texts[key]
    else:
        texts[key] += b"\\p\n"


def in_manner(chance: random.Random, file: bytes) -> bytes:
    """The file as another editor saves it."""
    manner = chance.randrange(4)
    if manner == 0:
        return file.replace(b"\n", b"\r\n")
    if manner == 1:
        return file.replace(b"\n", b" \n")
    if manner == 2:
        return MARK + file
    return file.rstrip(b"\n")


def changed(chance: random.Random, base: bytes, vocabulary: list[bytes]) -> bytes:
    """A side of a merge."""
    texts = texts_of(base)
    verses = [key for key, text in texts.items() if text.startswith(b"\\v ")]
    for key in chance.sample(verses, min(chance.randint(1, 5), len(verses))):
        edit(chance, texts, key, vocabulary)
    file = b"".join(texts.values())
    return in_manner(chance, file) if chance.random() < 0.2 else file


def merges(chance: random.Random, corpus: Path, count: int) -> list[Merge]:
    bases = [it for it in chapters(corpus) if it.count(b"\\v ") > 4]
    vocabulary = sorted({word for base in chance.sample(bases, 20) for word in re.findall(rb"\b[a-z]{3,}\b", base)})
    made = []
    for base in chance.choices(bases, k=count):
        made.append(Merge(base, changed(chance, base, vocabulary), changed(chance, base, vocabulary)))
    return made


# ---- what a merge owes


class Owed(NamedTuple):
    """The keys in conflict, and the wording that each other key has to have."""

    conflicts: set[Key]
    wordings: Texts


def owed(merge: Merge) -> Owed:
    base, ours, theirs = ({key: wording(text) for key, text in texts_of(file).items()} for file in merge)
    conflicts, wordings = set(), {}
    for key in {*base, *ours, *theirs}:
        was, mine, other = (side.get(key, b"") for side in (base, ours, theirs))
        if mine != was and other != was and mine != other:
            conflicts.add(key)
        elif mine != was or other != was:
            wordings[key] = mine if mine != was else other
        else:
            wordings[key] = was
    return Owed(conflicts, wordings)


def is_usfm(merge: Merge, file: bytes) -> bool:
    """Whether the file is of the book, and each of its lines is one of the three texts'."""
    try:
        if book_of(file) != book_of(merge.base):
            return False
    except Fault:
        return False
    lines = {line.rstrip() for side in merge for line in side.split(b"\n")}
    return all(line.rstrip() in lines or line.startswith(b"\\") for line in file.split(b"\n"))


def has_owed(due: Owed, file: bytes) -> bool:
    texts = texts_of(file)
    return all(wording(texts.get(key, b"")) == text for key, text in due.wordings.items())


# ---- the tools


def run(place: Path, merge: Merge, words: list[str]) -> tuple[int, bytes]:
    for name, text in zip(("base", *SIDES), merge):
        place.joinpath(name).write_bytes(text)
    done = subprocess.run(words, cwd=place, stdout=subprocess.PIPE, stderr=subprocess.DEVNULL, check=False)
    return done.returncode, done.stdout


def by_git(place: Path, merge: Merge) -> Outcome:
    status, text = run(place, merge, ["git", "merge-file", "-p", "ours", "base", "theirs"])
    return Outcome(status == 0, text)


def by_team(program: Path) -> Callable[[Path, Merge], Outcome]:
    def merged(place: Path, merge: Merge) -> Outcome:
        status, text = run(place, merge, [str(program), "merge", "base", "ours", "theirs", "--stdout"])
        if status not in (0, 1):
            sys.exit(f"{program}: merge ends with {status}")
        return Outcome(status == 0, text)

    return merged


def by_second(place: Path, merge: Merge) -> Outcome:
    merged = merging.merge(*merge)
    return Outcome(not merged.conflicts(), merging.merged_file(merged, merge.ours))


class Counts(NamedTuple):
    false: int
    missed: int
    no_usfm: int


def count(tool: Callable[[Path, Merge], Outcome], all_of: list[Merge], place: Path) -> Counts:
    false = missed = no_usfm = 0
    for merge in all_of:
        due, outcome = owed(merge), tool(place, merge)
        false += not outcome.clean and not due.conflicts
        missed += outcome.clean and (bool(due.conflicts) or not has_owed(due, outcome.text))
        no_usfm += not is_usfm(merge, outcome.text)
    return Counts(false, missed, no_usfm)


def main() -> int:
    said = argparse.ArgumentParser(description=__doc__.split("\n")[0])
    said.add_argument("corpus", type=Path)
    said.add_argument("--program", type=lambda it: Path(it).resolve())
    said.add_argument("--second", action="store_true")
    said.add_argument("--merges", type=int, default=200)
    said.add_argument("--seed", type=int, default=1)
    given = said.parse_args()
    all_of = merges(random.Random(given.seed), given.corpus, given.merges)
    in_conflict = sum(bool(owed(it).conflicts) for it in all_of)
    print(f"{len(all_of)} merges of real chapters, {in_conflict} of them with a segment in conflict")
    print(f"{'':<18} {'false':>6} {'missed':>7} {'no USFM':>8}")
    tools: dict[str, Callable[[Path, Merge], Outcome]] = {"git merge-file": by_git}
    if given.program:
        tools["usfm_team merge"] = by_team(given.program)
    if given.second:
        tools["second"] = by_second
    wrong = False
    with tempfile.TemporaryDirectory() as place:
        for name, tool in tools.items():
            counts = count(tool, all_of, Path(place))
            print(f"{name:<18} {counts.false:>6} {counts.missed:>7} {counts.no_usfm:>8}")
            wrong |= name != "git merge-file" and any(counts)
    return int(wrong)


if __name__ == "__main__":
    sys.exit(main())
