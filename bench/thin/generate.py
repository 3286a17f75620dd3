#!/usr/bin/env python3
"""Writes a project of 100,000 operations, half of them replaced, and a bundle of the same without the replaced texts.

    generate.py FOLDER      writes FOLDER/project and FOLDER/thinned

The project is that of a team of four on 27 books: each of 50,000 segments gets a text, and later another one in its
place. Each run writes the same bytes.
"""
import os
import random
import struct
import sys

sys.path.insert(0, os.path.dirname(os.path.dirname(os.path.abspath(__file__))))
from operations import NAMES, bundle, operation, text_of

BOOKS = "MAT MRK LUK JHN ACT ROM 1CO 2CO GAL EPH PHP COL 1TH 2TH 1TI 2TI TIT PHM HEB JAS 1PE 2PE 1JN 2JN 3JN JUD REV".split()
SEGMENTS = 50_000
VERSES = 40


def segments():
    """This many heads and verses, book after book."""
    for place in range(SEGMENTS):
        book, place = BOOKS[place * len(BOOKS) // SEGMENTS], place - first_of_book(place)
        chapter, verse = divmod(place - 1, VERSES + 1) if place else (-1, 0)
        yield book, chapter + 1, verse or None


def first_of_book(place):
    """The place of the first segment of the same book."""
    number = place * len(BOOKS) // SEGMENTS
    return -(-number * SEGMENTS // len(BOOKS))


def text_in(rng, place):
    book, chapter, verse = place
    if verse is not None:
        return text_of(rng, verse)
    return b"\\c %d\n\\p\n" % chapter if chapter else b"\\id %s\n" % book.encode()


def without_text(bytes_of, text):
    """The operation, which ends with its text, without it."""
    return bytes_of[: -len(text) - 9] + b"\0"


def main():
    rng = random.Random(27)
    full, thinned = [], []
    places = list(segments())
    for number, place in enumerate(places + places, start=1):
        op_id = (number, NAMES[number % len(NAMES)])
        first = number - SEGMENTS
        replaced = [(first, NAMES[first % len(NAMES)])] if first > 0 else []
        text = text_in(rng, place)
        bytes_of = operation(op_id, *place, replaced, text)
        full.append((op_id, bytes_of))
        thinned.append((op_id, bytes_of if replaced else without_text(bytes_of, text)))
    head = b"USFMPJ1\n" + struct.pack(">B", len(NAMES[0])) + NAMES[0]
    files = {"project": head + bundle(full), "thinned": b"USFMSR2\n" + bundle(thinned)[8:]}
    for name, content in files.items():
        with open(os.path.join(sys.argv[1], name), "wb") as out:
            out.write(content)


main()
