#!/usr/bin/env python3
"""Writes a stream of three overlapping bundles with this many operations in all.

    generate.py OPERATIONS > stream

The operations are those of a team of four on the New Testament: heads of books and chapters, verses with
texts of a natural length, edits that replace what was shown, and edits of one verse by two people apart from
each other. The same number of operations gives the same bytes.
"""
import os
import random
import sys

sys.path.insert(0, os.path.dirname(os.path.dirname(os.path.abspath(__file__))))
from operations import NAMES, bundle, operation, text_of

BOOKS = "MAT MRK LUK JHN ACT ROM 1CO 2CO GAL EPH PHP COL 1TH 2TH 1TI 2TI TIT PHM HEB JAS 1PE 2PE 1JN 2JN 3JN JUD REV".split()


def segments(count):
    """Heads and verses, book after book, about two thirds as many as there are operations."""
    wanted = max(1, count * 2 // 3)
    per_book = wanted // len(BOOKS) + 1
    for book in BOOKS:
        yield book, 0, None
        made = 1
        chapter = 0
        while made < per_book and chapter < 999:
            chapter += 1
            yield book, chapter, None
            made += 1
            for verse in range(1, 41):
                if made >= per_book:
                    break
                yield book, chapter, verse
                made += 1


def main():
    count = int(sys.argv[1])
    rng = random.Random(count)
    places = list(segments(count))
    shown = {}
    operations = []
    number = 0
    while len(operations) < count:
        number += 1
        if len(operations) < len(places):
            place = places[len(operations)]
        else:
            place = rng.choice(places)
        book, chapter, verse = place
        before = shown.get(place, [])
        apart = before and rng.random() < 0.05
        replaced = [] if apart else before
        name = NAMES[number % len(NAMES)]
        if verse is not None:
            text = text_of(rng, verse)
        elif chapter:
            text = b"\\c %d\n\\p\n" % chapter
        else:
            text = b"\\id %s\n" % book.encode()
        op_id = (number, name)
        operations.append((op_id, operation(op_id, book, chapter, verse, replaced, text)))
        shown[place] = before + [op_id] if apart else [op_id]
    cut = [len(operations) * part // 10 for part in (0, 6, 3, 9, 5, 10)]
    for start, end in zip(cut[0::2], cut[1::2]):
        sys.stdout.buffer.write(bundle(operations[start:end]))


main()
