#!/usr/bin/env python3
"""Writes bundles of a project whose operations came in random order.

    generate.py OPERATIONS FILE

The operations are numbered from 1 on, each of a segment of its own. A run of 1 to 100 numbers is of one name, out of
eight; every tenth run or so is missing. They are in bundles of 1,000 in random order. Each run writes the same bytes.
"""
import os
import random
import sys

sys.path.insert(0, os.path.dirname(os.path.dirname(os.path.abspath(__file__))))
from operations import bundle, operation, text_of

NAMES = [b"ana", b"ben", b"cy", b"dan-2", b"eva", b"finn-the-translator", b"gil", b"hana"]
BOOKS = ["MAT", "MRK", "LUK", "JHN", "ACT", "ROM", "1CO", "2CO"]
MISSING = 0.1
IN_A_BUNDLE = 1_000


def places():
    for book in BOOKS:
        for chapter in range(1, 999):
            for verse in range(1, 201):
                yield book, chapter, verse


def main():
    count, name = int(sys.argv[1]), sys.argv[2]
    rng = random.Random(71)
    operations = []
    number = 0
    place = places()
    while len(operations) < count:
        who = rng.choice(NAMES)
        is_missing = rng.random() < MISSING
        for _ in range(rng.randint(1, 100)):
            number += 1
            if not is_missing and len(operations) < count:
                book, chapter, verse = next(place)
                op_id = (number, who)
                operations.append((op_id, operation(op_id, book, chapter, verse, [], text_of(rng, verse))))
    rng.shuffle(operations)
    with open(name, "wb") as out:
        for at in range(0, count, IN_A_BUNDLE):
            out.write(bundle(sorted(operations[at:at + IN_A_BUNDLE])))


main()
