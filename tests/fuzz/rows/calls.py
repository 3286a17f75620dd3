"""Rows of single calls: each gives what was found and what is wanted."""
from typing import Iterator

from model.bundles import Source, read_bundle, read_summary, read_whole_bundle, write_bundle, write_summary
from model.checks import check
from model.faults import text_of
from model.operations import Operation, join, thin
from model.references import BOOK_HEAD, HEAD, Id, Key, Verse, VerseMark, book_rank, chapter_after, read_id
from model.references import read_name, read_ref, verse_after, write_ref
from model.replicas import load, save
from model.searches import find, words
from model.sheets import read_sheet
from model.tokens import book_of, cut, fits, tokens_of
from model.trees import Kind, Node, tree_of

from .vectors import ANAS, BENS, CLASHING, EMPTY, FIRST, SHEET, SUMMARY, THINNED, answer_of

Rows = Iterator[tuple[object, object]]

ONE = Key(1, HEAD)


def verse(chapter: int, number: int, letter: str = "") -> Key:
    return Key(chapter, Verse(number, letter))


def references() -> Rows:
    """References."""
    yield read_ref("MAT 5:3a"), ("MAT", verse(5, 3, "a"))
    yield read_ref("MAT 0"), ("MAT", BOOK_HEAD)
    yield read_ref("MAT 0:1"), ("MAT", verse(0, 1))
    for word in ("MAT 05", "MAT 1000", "MAT", "MAT  5", "MAT 5:3A", "MAT 5:3ab", "MAT 5:03", "MAT 5\n"):
        yield answer_of(read_ref, word), b"fault 21\n"
    for word in ("mat 5", "MA", "", "M\u00e9"):
        yield answer_of(read_ref, word), b"fault 20\n"
    yield write_ref("MAT", verse(5, 3, "a")), "MAT 5:3a"
    yield sorted(["XXA", "REV", "1AA", "MAT", "GEN"], key=book_rank), ["GEN", "MAT", "REV", "1AA", "XXA"]
    yield sorted([verse(1, 0), verse(1, 3, "b"), verse(1, 3), ONE, verse(1, 3, "a"), BOOK_HEAD]), [
        *(BOOK_HEAD, ONE, verse(1, 0), verse(1, 3), verse(1, 3, "a"), verse(1, 3, "b"))
    ]


def ids() -> Rows:
    """Ids and names."""
    yield read_id("3:ana"), Id(3, "ana")
    yield read_id("1000000000000000:-"), Id(10**15, "-")
    wrong = ("03:ana", "0:ana", "3", "3:", "3:Ana", "3 ana", "1000000000000001:ana", "3:ana\n", "3:" + "a" * 33)
    for word in wrong:
        yield answer_of(read_id, word), b"fault 52\n"
    yield read_name("a" * 32), "a" * 32
    for word in ("Ana", "", "a" * 33, "an\u00e4", "a b"):
        yield answer_of(read_name, word), b"fault 50\n"
    yield sorted([Id(2, "a0"), Id(2, "a-"), Id(2, "a"), Id(2, "-"), Id(1, "z")]), [
        *(Id(1, "z"), Id(2, "-"), Id(2, "a"), Id(2, "a-"), Id(2, "a0"))
    ]


def numbers() -> Rows:
    """Numbers after marks."""
    three = Verse(3)
    yield verse_after(b" 3-4 x"), VerseMark(three, Verse(4), 4)
    yield verse_after(b" 3a"), VerseMark(Verse(3, "a"), None, 3)
    yield verse_after(b" 3-x"), VerseMark(three, None, 2)
    yield verse_after(b" 3a-4b."), VerseMark(Verse(3, "a"), Verse(4, "b"), 6)
    yield verse_after(b" 3-4-5"), VerseMark(three, Verse(4), 4)
    yield verse_after(b"\r\n\t 003|"), VerseMark(three, None, 7)
    for text in (" 3\u00e9", " 3_", " 3|", " 3\u20134", " 3-1000", " 3-4ab", " 3--4", " 3- 4"):
        yield verse_after(text.encode()), VerseMark(three, None, 2)
    for text in (b"3", b" 1000", b" 3ab", b" 3A", b" 3aA", b" 0000", b"\xc2\xa03", b"\x0b3", b""):
        yield verse_after(text), None
    yield chapter_after(b" 0"), 0
    yield chapter_after(b" 12-13"), 12
    for text in (b" 12a", b"12", b" 1000"):
        yield chapter_after(text), None


def tokens() -> Rows:
    """Tokens."""
    yield [it.slice for it in tokens_of(b"\\nd LORD\\nd*")], [b"\\nd", b" LORD", b"\\nd*"]
    yield [it.slice for it in tokens_of(b"\\++nd**\\\\*\\+")], [b"\\+", b"+nd**", b"\\", b"\\*", b"\\+"]
    yield answer_of(text_of, b"\x61\xff"), b"fault 10 1\n"


def pieces() -> Rows:
    """Pieces of a book."""
    yield [(it.key, it.start) for it in cut(b"\\id MAT\n\\c 1\n\\v 1 a \\v 3 b \\v 2 c \\v 4 d")], [
        *((BOOK_HEAD, 0), (ONE, 8), (verse(1, 1), 13), (verse(1, 3), 20), (verse(1, 4), 34))
    ]
    text = b"\\id MAT\n\\c 3\n\\v 5 a\n\\c 2\n\\v 6 b\n"
    yield [(it.key, it.start) for it in cut(text)], [
        *((BOOK_HEAD, 0), (Key(3, HEAD), 8), (verse(3, 5), 13), (verse(3, 6), 25))
    ]
    yield cut(text)[2].text, b"\\v 5 a\n\\c 2\n"
    yield cut(b""), [(BOOK_HEAD, 0, b"")]
    yield [it.text for it in cut(b"\\c 0\\v 1 a\\v1 b\\+v 2\\v 2")], [b"\\c 0", b"\\v 1 a\\v1 b\\+v 2", b"\\v 2"]


def fitting() -> Rows:
    """Texts that fit."""
    for key, text, wanted in [
        (BOOK_HEAD, b"\\id MAT", True),
        (BOOK_HEAD, b"\\id MAT \\c 0", True),
        (BOOK_HEAD, b"\xef\xbb\xbf\\id\tMAT\\", True),
        (BOOK_HEAD, b"\\id MATT", False),
        (BOOK_HEAD, b"\\id MAT\n\\c 1", False),
        (BOOK_HEAD, b"\\id LUK", False),
        (BOOK_HEAD, b"", False),
        (verse(0, 1), b"\\v 1 a", True),
        (ONE, b"", True),
        (ONE, b"\\c 2", False),
        (verse(1, 1), b"\\v 1 a \\c 2", False),
        (verse(1, 1), b"\\v 1 a \\c 1", True),
        (verse(1, 1), b"\\v 2 b", False),
        (verse(1, 1), b"\\v 1 a \\v 2 b", False),
        (verse(1, 3), b"\\v 3 a \\v 2 b", True),
        (verse(5, 3), b"\\v 3 \\c 3 \\v 9", False),
        (verse(1, 1), b" \\v 1 a", False),
        (verse(1, 1), b"\\+v 1 a", False),
    ]:
        yield (key, text, fits("MAT", key, text)), (key, text, wanted)


def books() -> Rows:
    """The book that a text begins with."""
    yield book_of(b"\xef\xbb\xbf\\id\nMAT\\c 1"), "MAT"
    for rest in ("  MAT", "\r\nMAT", " ", " MATX", " MAT-", " MAT*", " MAT\u00e9", " mat"):
        yield answer_of(book_of, b"\\id" + rest.encode()), b"fault 20\n"
    for text in ("", "\\id", "\\idx MAT", "\\id+ MAT", "\\id* MAT", "\\+id MAT", " \\id MAT", "\\c 1"):
        yield answer_of(book_of, text.encode()), b"fault 30\n"
    for text in ("\ufeff\ufeff\\id MAT", "\ufeff \\id MAT"):
        yield answer_of(book_of, text.encode()), b"fault 30\n"


def sheets() -> Rows:
    """Style sheets."""

    def read(text: bytes) -> object:
        sheet = answer_of(read_sheet, text)
        return sheet if isinstance(sheet, bytes) else [(it.marker, it.name) for it in sheet.records.values()]

    yield read(b"\\Endmarker nd*"), b"fault 40 1\n"
    yield read(b"\\Marker nd\n\\StyleType Foo"), b"fault 42 2\n"
    yield read(b"\\Marker nd\n\\StyleType"), b"fault 42 2\n"
    yield read(b"\\StyleType Foo"), b"fault 40 1\n"
    yield read(b"\\Marker\n"), b"fault 41 1\n"
    yield read(b"\n\\Marker #a\n"), b"fault 41 2\n"
    yield read(b"\\Marker a\n\\StyleType Note x\n\\StyleType Note"), b"fault 42 2\n"
    yield read(b"\\Marker a\n\\Name one\n\\Marker b\n\\Marker a\n"), [(b"a", b""), (b"b", b"")]
    yield read(b"#!\\Marker a\n# \\Marker b\n#!\\Name one\n"), [(b"a", b"one")]
    yield read(b"#!#!\\Marker a\n#! # x\n"), []
    yield read(b"\xef\xbb\xbf \\marker a b\r\n\\NAME one # two\r\n\\Rank 4"), [(b"a", b"one")]
    yield read(b" \xef\xbb\xbf\\Marker a"), []
    yield read_sheet(b"\\Marker a\n\\Endmarker a* b").records[b"a"].closer, b"a* b"
    yield read_sheet(b"\\Marker a\n\\TextType VERSEtext").records[b"a"].verse_text, True


def slices(node: Node) -> list[bytes]:
    """The slices of what is in a node."""
    return [b"".join(it.leaves()) for it in node.kids]


def trees() -> Rows:
    """Trees."""
    sheet = read_sheet(SHEET)
    text = b"\\p\\add a \\+nd b\\+nd* c\\add*\\wj d\\f + \\ft e\\f* g\\wj*\\nd*\n"
    root = tree_of(text, sheet)
    yield (len(list(root.leaves())), b"".join(root.leaves())), (19, text)
    yield slices(root.kids[0].kids[0]), [b" a ", b"\\+nd b\\+nd*", b" c"]
    yield [(it.code, it.start) for it in check(text, sheet)], [("stray-close", 51)]
    text = b"\\p \\nd a\\add b\\add*\\nd* c"
    kids = tree_of(text, sheet).kids[0].kids
    yield [it.kind for it in kids], [Kind.TEXT, Kind.CHARACTER, Kind.CHARACTER, Kind.LEAF, Kind.TEXT]
    yield check(text, sheet), [("unclosed-char", 3, BOOK_HEAD), ("stray-close", 19, BOOK_HEAD)]
    text = b'\\p \\qt-s |who="Pilate"\\*What?\\qt-e\\*'
    kids = tree_of(text, sheet).kids[0].kids
    yield [it.kind for it in kids], [Kind.TEXT, Kind.MILESTONE, Kind.TEXT, Kind.MILESTONE]
    yield (check(text, sheet), find(text, sheet, b"Pilate")), ([], [])
    yield answer_of(find, text, sheet, b""), b"fault 100\n"


def deep_trees() -> Rows:
    """Trees that are too deep."""
    sheet = read_sheet(SHEET)
    found = check(b"\\p\\add" + 65 * b"\\+nd", sheet)
    yield [it.start for it in found if it.code == "too-deep"], [254, 258, 262]
    yield (len(found), len([it for it in found if it.code == "unclosed-char"])), (66, 63)


def findings() -> Rows:
    """Findings."""
    sheet = read_sheet(SHEET)
    opening = b"\\id MAT\n\\c 1\n\\v "
    yield check(opening + b"1 a \\v 3 b \\v 2 c \\v 4 d", sheet), [("not-rising", 27, verse(1, 3))]
    yield check(b"\\id MAT\n\\c 3\n\\v 5 a\n\\c 2\n\\v 6 b\n", sheet), [("not-rising", 20, verse(3, 5))]
    yield check(opening + b"3-4a x\n\\v 4b y\n", sheet), []
    yield check(opening + b"3-4a x\n\\v 4a y\n", sheet), [("overlap", 23, verse(1, 4, "a"))]
    yield check(opening + b"3-4a x\n\\v 4 y\n", sheet), [("overlap", 23, verse(1, 4))]
    for bridge in (b"3-3", b"3a-3", b"3b-3a", b"3-x", b"3-"):
        yield [(it.code, it.start) for it in check(opening + bridge + b" x\n", sheet)], [("bad-bridge", 13)]
    yield check(opening + b"3-3a x\n", sheet), []
    yield [(it.code, it.start) for it in check(b"\\zz\\c\\v x\\*", sheet)], [
        *(("unknown-marker", 0), ("bad-number", 3), ("bad-number", 5), ("stray-close", 9))
    ]
    yield check(b"\\nd a\\nd*", sheet), [("not-under", 0, BOOK_HEAD)]
    yield check(b"\\p \\f a", sheet), [("unclosed-note", 3, BOOK_HEAD)]


def hits() -> Rows:
    """Hits and words."""
    sheet = read_sheet(SHEET)
    first = verse(1, 1)
    text = b'\\id MAT\n\\c 1\n\\p\n\\v 1 In \\w gnat|lemma="gnat"\\w* the gnat\\f + \\ft gnat\\f*\n'
    yield find(text, sheet, b"gnat"), [(first, 27), (first, 52)]
    for needle in (b"lemma", b"+", b"1"):
        yield find(text, sheet, needle), []
    yield words(text, sheet), [(b"In", [first]), (b"gnat", [first]), (b"the", [first])]
    yield find(b"\\p aaa", sheet, b"aa"), [(BOOK_HEAD, 3)]
    yield words("\\p \u00e9 e\u0301".encode(), sheet), [("\u00e9".encode(), [BOOK_HEAD])]
    yield words("\\p \u2167 \u24d0 \u0301a 2b".encode(), sheet), [
        (it.encode(), [BOOK_HEAD]) for it in ("b", "\u0301a", "\u2167", "\u24d0")
    ]
    yield find(b"\\p \\+v 3 x\\v 3-4 y", sheet, b"3"), [(BOOK_HEAD, 7)]


def bundles() -> Rows:
    """Bundles."""
    first, bens = read_whole_bundle(FIRST), read_whole_bundle(BENS)
    yield write_bundle(first), FIRST
    yield (len(FIRST), len(BENS), len(ANAS)), (108, 74, 74)
    yield len(write_bundle(join(first, bens))), 166
    yield answer_of(join, first, read_whole_bundle(CLASHING)), b"fault 51 2 ana\n"
    source = Source(FIRST + b"\0")
    yield (read_bundle(source), source.at), (first, 108)
    yield answer_of(read_whole_bundle, FIRST + b"\0"), b"fault 70\n"
    for length in range(len(FIRST)):
        yield answer_of(read_whole_bundle, FIRST[:length]), b"fault 61\n"
    for magic, wanted in [(b"USFMSR2", b"fault 61\n"), (b"USFMSR3", b"fault 60\n"), (b"USFM2", b"fault 60\n")]:
        yield answer_of(read_whole_bundle, magic), wanted


def thinned_bundles() -> Rows:
    """Bundles with thinned operations."""
    first, thinned = read_whole_bundle(FIRST), read_whole_bundle(THINNED)
    yield (len(THINNED), write_bundle(thinned)), (104, THINNED)
    for joined in (join(first, thinned), join(thinned, first)):
        yield (len(write_bundle(joined)), thin(joined)), (150, joined)
        yield [joined[id].text for id in sorted(joined)], [b"\\id MAT\n", None, b"\\v 1 At\n"]
    for length in range(len(THINNED)):
        yield answer_of(read_whole_bundle, THINNED[:length]), b"fault 61\n"
    yield answer_of(read_whole_bundle, THINNED + b"\0"), b"fault 70\n"
    alone = THINNED[:15] + b"\1" + THINNED[16:46]
    for bundle in (alone, alone + b"\0"):
        yield answer_of(read_whole_bundle, bundle), b"fault 69 1\n"
    last = Operation(Id(3, "ben"), "MAT", verse(1, 2), (Id(2, "ana"),), b"\\v 2 b\n")
    elsewhere = write_bundle({**thinned, last.id: last})
    yield answer_of(read_whole_bundle, elsewhere), b"fault 69 1\n"
    yield answer_of(read_whole_bundle, elsewhere[:-3] + b"\xff b"), b"fault 67 2\n"
    yield answer_of(read_whole_bundle, FIRST[:8] + THINNED[8:]), b"fault 66 1\n"
    yield answer_of(read_whole_bundle, THINNED[:16] + FIRST[16:]), b"fault 69 0\n"


def changed_bundles() -> Rows:
    """Bundles with one byte changed."""
    for place, byte, wanted in [
        *((0, 0x54, "60"), (6, 0x32, "69 0"), (15, 0x03, "61"), (15, 0x01, "70"), (23, 0x00, "63 1"), (24, 0x00, "63 1")),
        *((24, 0x21, "63 1"), (25, 0x41, "63 1"), (28, 0x6D, "64 1"), (35, 0x01, "64 1"), (37, 0x7F, "65 1")),
        *((45, 0x02, "66 1"), (45, 0x00, "66 1"), (46, 0xFF, "61"), (53, 0x09, "63 2"), (54, 0xFF, "67 1")),
        *((69, 0x01, "62 2"), (82, 0x41, "64 2"), (103, 0x32, "68 2")),
    ]:
        changed = FIRST[:place] + bytes([byte]) + FIRST[place + 1 :]
        yield (place, answer_of(read_whole_bundle, changed)), (place, f"fault {wanted}\n".encode())


def summaries() -> Rows:
    """Summaries and project files."""
    yield read_summary(SUMMARY), {"ana": [(1, 3), (5, 5)]}
    yield write_summary(read_summary(SUMMARY)), SUMMARY
    for length in range(len(SUMMARY)):
        yield answer_of(read_summary, SUMMARY[:length]), b"fault 71\n"
    joined = SUMMARY[:-9] + b"\x04" + SUMMARY[-8:]
    for changed in (joined, SUMMARY[:19] + b"\0" + SUMMARY[19:], SUMMARY + b"\0", SUMMARY[:20] + bytes(8)):
        yield answer_of(read_summary, changed), b"fault 71\n"
    yield save(load(EMPTY)), EMPTY
    for length in range(len(EMPTY)):
        yield answer_of(load, EMPTY[:length]), b"fault 110\n" if length < 12 else b"fault 61\n"


PARTS = [references, ids, numbers, tokens, pieces, fitting, books, sheets, trees, deep_trees, findings, hits]
PARTS += [bundles, thinned_bundles, changed_bundles, summaries]
