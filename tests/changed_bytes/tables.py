"""Bundles, project files and summaries with one thing changed, each with the fault that has to be reported.

The values follow docs/FORMATS.md: which byte belongs to which field, and which fault a field has.
"""
from model.bundles import write_bundle
from rows.vectors import BENS, BOOK, EMPTY, FIRST, SUMMARY, THINNED

AFTER = b"\\id MAT\n\\c 1\n\\v 1 At\n"
# A book whose head is not there.
HEADLESS = b"\\c 1\n\\v 1 At\n"

# The bytes of a bundle and what `receive` and `fold` answer.
Row = tuple[bytes, bytes, bytes]


def changed(data: bytes, place: int, value: int) -> bytes:
    """The bytes with another one at a place."""
    return data[:place] + bytes([value]) + data[place + 1 :]


def fault(*details: int) -> bytes:
    """The line of a fault."""
    return b"fault " + b" ".join(b"%d" % it for it in details) + b"\n"


# Place and value of a byte in FIRST, and the fault of what that gives.
CHANGED_FIRST = [
    (0, 0x54, fault(60)),
    (6, 0x33, fault(60)),
    (15, 0x03, fault(61)),
    (23, 0x00, fault(63, 1)),
    (24, 0x00, fault(63, 1)),
    (24, 0x21, fault(63, 1)),
    (25, 0x41, fault(63, 1)),
    (28, 0x6D, fault(64, 1)),
    (35, 0x01, fault(64, 1)),
    (37, 0x7F, fault(65, 1)),
    (45, 0x02, fault(66, 1)),
    (45, 0x00, fault(66, 1)),
    (46, 0xFF, fault(61)),
    (53, 0x09, fault(63, 2)),
    (54, 0xFF, fault(67, 1)),
    (69, 0x01, fault(62, 2)),
    (82, 0x41, fault(64, 2)),
    (103, 0x32, fault(68, 2)),
]


def of_first_format() -> list[Row]:
    """Changed bundles of the first format. One operation less leaves something after the bundle."""
    rows = [(changed(FIRST, place, value), line, line) for place, value, line in CHANGED_FIRST]
    rows.append((changed(FIRST, 15, 0x01), fault(70), fault(60)))
    rows.append((FIRST + b"\0", fault(70), fault(60)))
    return rows


def of_second_format() -> list[Row]:
    """Changed bundles of the second format."""
    elsewhere = THINNED[:46] + THINNED[46:].replace(b"MAT\0\1\1\0\1", b"MAT\0\1\1\0\2").replace(b"\\v 1 At\n", b"\\v 2 b\n")
    elsewhere = elsewhere.replace(b"\1\0\0\0\0\0\0\0\x08\\v 2", b"\1\0\0\0\0\0\0\0\x07\\v 2")
    rows = [
        (changed(THINNED[:46], 15, 0x01), fault(69, 1)),
        (elsewhere, fault(69, 1)),
        (changed(FIRST, 6, 0x32), fault(69, 0)),
        (changed(THINNED, 6, 0x31), fault(66, 1)),
        (changed(THINNED, 6, 0x33), fault(60)),
        (changed(THINNED, 45, 0x02), fault(66, 1)),
        (changed(THINNED, 45, 0x01), fault(68, 1)),
        (changed(THINNED, 85, 0x62), fault(69, 1)),
        (changed(THINNED, 87, 0x00), fault(69, 2)),
        (changed(THINNED, 87, 0x02), fault(66, 2)),
        (changed(THINNED, 103, 0xFF), fault(67, 2)),
    ]
    return [(data, line, line) for data, line in rows] + [(THINNED + b"\0", fault(70), fault(60))]


# Bytes that are no summary: each field of SUMMARY, ana 1 to 3 and 5, changed where its rule ends.
def summaries() -> list[bytes]:
    """Bytes that are no summary."""
    last = SUMMARY[:-16]
    names = SUMMARY[:8] + (2).to_bytes(8, "big") + SUMMARY[16:]
    changes = [
        (0, 0x54),
        (6, 0x32),
        (15, 0x00),
        (15, 0x02),
        (16, 0x00),
        (16, 0x21),
        (16, 0x02),
        (17, 0x41),
        (27, 0x00),
        (27, 0x01),
        (27, 0x03),
        (35, 0x00),
        (35, 0x04),
        (43, 0x00),
        (36, 0xFF),
        (51, 0x04),
        (51, 0x03),
        (51, 0x06),
        (59, 0x04),
    ]
    greatest = (10**15).to_bytes(8, "big")
    too_great = (10**15 + 1).to_bytes(8, "big")
    return [changed(SUMMARY, place, value) for place, value in changes] + [
        SUMMARY + b"\0",
        last,
        last + SUMMARY[-16:-8] + too_great,
        last + too_great + too_great,
        SUMMARY[:28] + greatest + greatest + SUMMARY[44:],
        names + SUMMARY[16:],
        names + b"\2an" + SUMMARY[20:],
        names + SUMMARY[16:20] + bytes(8),
    ]


# The bundles whose fronts and changes are given.
BUNDLES = [FIRST, BENS, THINNED]

# The files of ana's projects that hold nothing, and the operations of each of them.
PROJECTS = [EMPTY] + [EMPTY[: -len(write_bundle({}))] + it for it in BUNDLES]

# Bundles of a stream, and the book after each of them. A front that is cut elsewhere gives none.
STREAMS = [
    ([FIRST, FIRST], [BOOK, BOOK]),
    ([FIRST, BENS], [BOOK, AFTER]),
    ([BENS, FIRST], [HEADLESS, AFTER]),
    ([FIRST, THINNED], [BOOK, AFTER]),
    ([THINNED, FIRST], [HEADLESS, AFTER]),
]
