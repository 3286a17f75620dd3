#!/usr/bin/env python3
"""Writes a project of 66 books, a book to import into it and a bundle to receive.

    generate.py FOLDER      writes FOLDER/project, FOLDER/book.usfm and FOLDER/delta

The project is that of a team of four on the whole canon, about 31,000 verses: first each head and each verse once, in
the canon's order, then later edits of some verses, a few of them by two people apart from each other. A few chapters
have no head of their own. The book is Job as the project exports it, with 30 of its 1,000 or so verses changed, the
first of these left out. The bundle has 100 later edits by one of the team, a few of them apart from what the project
has. Each run writes the same bytes.
"""
import os
import random
import struct
import sys

sys.path.insert(0, os.path.dirname(os.path.dirname(os.path.abspath(__file__))))
from operations import NAMES, bundle, operation, text_of

CHAPTERS = """GEN 50 EXO 40 LEV 27 NUM 36 DEU 34 JOS 24 JDG 21 RUT 4 1SA 31 2SA 24 1KI 22 2KI 25 1CH 29 2CH 36 EZR 10
NEH 13 EST 10 JOB 42 PSA 150 PRO 31 ECC 12 SNG 8 ISA 66 JER 52 LAM 5 EZK 48 DAN 12 HOS 14 JOL 3 AMO 9 OBA 1 JON 4 MIC 7
NAM 3 HAB 3 ZEP 3 HAG 2 ZEC 14 MAL 4 MAT 28 MRK 16 LUK 24 JHN 21 ACT 28 ROM 16 1CO 16 2CO 13 GAL 6 EPH 6 PHP 4 COL 4
1TH 5 2TH 3 1TI 6 2TI 4 TIT 3 PHM 1 HEB 13 JAS 5 1PE 5 2PE 3 1JN 5 2JN 1 3JN 1 JUD 1 REV 22""".split()
NAME = NAMES[0]
IMPORTED = "JOB"
CHANGED = 30
EDITED_AGAIN = 500
RECEIVED = 100
APART = 0.1


def segments(rng):
    """Heads and verses of all books, in order, with 16 to 36 verses in a chapter."""
    for book, count in zip(CHAPTERS[0::2], CHAPTERS[1::2]):
        yield book, 0, None
        for chapter in range(1, int(count) + 1):
            if chapter % 40:
                yield book, chapter, None
            for verse in range(1, rng.randint(16, 36) + 1):
                yield book, chapter, verse


def first_text(rng, place):
    book, chapter, verse = place
    if verse is not None:
        return verse_text(rng, verse)
    if chapter:
        return b"\\c %d\n\\p\n" % chapter
    return b"\\id %s\n\\h The book\n\\mt1 The book\n" % book.encode()


def verse_text(rng, verse):
    """A verse, now and then with a name, a note or a paragraph after it."""
    text = text_of(rng, verse)
    chance = rng.random()
    if chance < 0.1:
        return text[:-1] + b" the \\nd LORD\\nd*\n"
    if chance < 0.15:
        return text[:-1] + b"\\f + \\ft Or, the light\\f*\n"
    return text + b"\\p\n" if chance < 0.35 else text


class Team:
    """The segments' operations that are shown, each an id with its text, and all operations as bytes."""

    def __init__(self, rng):
        self.rng = rng
        self.shown = {}
        self.operations = []

    def edit(self, place, name, text):
        book, chapter, verse = place
        op_id = (len(self.operations) + 1, name)
        before = self.shown.get(place, [])
        named = before[:-1] if self.rng.random() < APART else before
        replaced = [shown_id for shown_id, _ in named]
        self.operations.append((op_id, operation(op_id, book, chapter, verse, replaced, text)))
        self.shown[place] = before[len(named):] + [(op_id, text)]

    def picked(self, place):
        return self.shown[place][-1][1]


def changed_book(rng, team, places):
    """The imported book, with some verses changed: by rising key, and with the line of each chapter without a head."""
    verses = [place for place in places if place[0] == IMPORTED and place[2] is not None]
    changed = rng.sample(verses, CHANGED)
    pieces = {(chapter, 0): b"\\c %d\n" % chapter for _, chapter, _ in verses}
    for place in places:
        if place[0] == IMPORTED:
            text = verse_text(rng, place[2]) if place in changed else team.picked(place)
            pieces[place[1], place[2] or 0] = b"" if place == changed[0] else text
    return b"".join(pieces[key] for key in sorted(pieces))


def main():
    folder = sys.argv[1]
    rng = random.Random(66)
    team = Team(rng)
    places = list(segments(rng))
    verses = [place for place in places if place[2] is not None]
    for place in places:
        team.edit(place, rng.choice(NAMES), first_text(rng, place))
    for place in rng.choices(verses, k=EDITED_AGAIN):
        team.edit(place, rng.choice(NAMES), verse_text(rng, place[2]))
    held = len(team.operations)
    book = changed_book(rng, team, places)
    for place in rng.choices(verses, k=RECEIVED):
        team.edit(place, NAMES[1], verse_text(rng, place[2]))
    project = b"USFMPJ1\n" + struct.pack(">B", len(NAME)) + NAME + bundle(team.operations[:held])
    for name, text in (("project", project), ("book.usfm", book), ("delta", bundle(team.operations[held:]))):
        with open(os.path.join(folder, name), "wb") as out:
            out.write(text)


if __name__ == "__main__":
    main()
