"""Inputs that are built to take long: of each a small one, and one of ten times as many bytes."""
import os
import struct
import sys
from dataclasses import dataclass, field
from typing import Callable

sys.path.insert(0, os.path.dirname(os.path.dirname(os.path.abspath(__file__))))
from operations import bundle, operation

PROJECT = "p"
HEAD = b"\\id MAT\n"
FORMAT_2 = b"USFMSR2\n"
DIGITS = "0123456789ABCDEFGHIJKLMNOPQRSTUVWXYZ"

# A style sheet with paragraphs, characters and notes.
SHEET = b"""\\Marker id
\\StyleType Paragraph
\\Marker c
\\StyleType Paragraph
\\Marker v
\\StyleType Character
\\Marker p
\\TextType VerseText
\\StyleType Paragraph
\\Marker nd
\\Endmarker nd*
\\OccursUnder p NEST
\\StyleType Character
\\Marker f
\\Endmarker f*
\\StyleType Note
"""


@dataclass(frozen=True)
class Input:
    """A command, the files that it reads, its standard input, and the fault that it writes at the end, if it does."""

    words: list[str]
    files: dict[str, bytes] = field(default_factory=dict)
    given: bytes = b""
    fault: bytes = b""

    def length(self) -> int:
        return len(self.given) + sum(len(it) for it in self.files.values())


@dataclass(frozen=True)
class Family:
    """What is hard about these inputs, how great the small one and the great one are, and what makes them."""

    what: str
    small: int
    great: int
    make: Callable[[int], Input]


def fold(*bundles: bytes) -> Input:
    return Input(["fold", "MAT"], given=b"".join(bundles))


def project(data: bytes) -> bytes:
    """The file of ana's project that holds a bundle's operations."""
    return b"USFMPJ1\n\x03ana" + data


def rising(operations: list[bytes]) -> bytes:
    """A bundle of operations that are in the order of their ids."""
    return bundle([(None, it) for it in operations])


def book_code(place: int) -> str:
    """A book of no canon: the greatest one is the first."""
    return "".join(DIGITS[35 - place // 36**power % 36] for power in (2, 1, 0))


def text_of(verse: int) -> bytes:
    return b"\\v %d a\n" % verse


# --- Operations ---


def falling_chapters(count: int) -> Input:
    """One bundle whose chapters fall while its ids rise, none of which is of Matthew."""
    places = ((book_code(at // 999), 999 - at % 999) for at in range(count))
    operations = [operation((at, b"a"), book, chapter, 1, [], text_of(1)) for at, (book, chapter) in enumerate(places, 1)]
    return Input(["fold", "MAT"], given=rising(operations), fault=b"fault 82\n")


def falling_verses(count: int) -> Input:
    """One bundle whose verses, parts of a verse after it, fall in one chapter while its ids rise."""
    operations = []
    for at in range(1, count + 1):
        number, part = divmod(count - at, 27)
        letter = 96 + part if part else 0
        text = b"\\v %d%s a\n" % (number, bytes([letter]) if letter else b"")
        operations.append(operation((at, b"a"), "MAT", 1, number, [], text, letter))
    return fold(rising(operations))


def falling_bundles(count: int) -> Input:
    """Bundles of one operation each, whose ids fall."""
    one = (operation((at, b"a"), "MAT", at % 999 + 1, at // 999 + 1, [], text_of(at // 999 + 1)) for at in range(count, 0, -1))
    return fold(*(rising([it]) for it in one))


def naming_all(count: int) -> Input:
    """Operations of one segment, each of which names all before it."""
    ids = [(at, b"a") for at in range(1, count + 1)]
    return fold(rising([operation(it, "MAT", 1, 1, ids[:at], text_of(1)) for at, it in enumerate(ids)]))


def conflicting(count: int) -> bytes:
    """One segment with this many texts."""
    return rising([operation((at, b"a"), "MAT", 1, 1, [], b"\\v 1 %d\n" % at) for at in range(1, count + 1)])


def many_conflicts(count: int) -> bytes:
    """This many segments of a book, each with two texts."""
    places = [(at // 200 + 1, at % 200 + 1) for at in range(count)]
    ids = [(number, chapter, verse) for number, (chapter, verse) in enumerate([it for it in places for _ in "ab"], 1)]
    return rising([operation((number, b"a"), "MAT", chapter, verse, [], b"\\v %d %d\n" % (verse, number)) for number, chapter, verse in ids])


def alike(count: int) -> list[bytes]:
    """Operations of one segment with one text, none of which names another."""
    return [operation((at, b"a"), "MAT", 1, 1, [], text_of(1)) for at in range(1, count + 1)]


def changed_alike(count: int) -> Input:
    """A file in which one verse was changed that had this many equal texts, and got one more since."""
    one_more = operation((count + 1, b"b"), "MAT", 1, 1, [], text_of(1))
    files = {PROJECT: project(rising([*alike(count), one_more])), "base": rising(alike(count)), "book": HEAD + b"\\c 1\n\\v 1 b\n"}
    return Input(["import", PROJECT, "book", "--since", "base"], files)


def synced_alike(count: int) -> Input:
    """A first sync of a book in which one verse has this many equal texts."""
    head = operation((1, b"ana"), "MAT", 0, None, [], HEAD)
    return Input(["sync", PROJECT, "."], {PROJECT: project(rising([*alike(1), head, *alike(count)[1:]]))})


def edited_over(count: int) -> Input:
    """An edit over this many given ids, and one that is shown besides."""
    ids = [b"%d:a" % at for at in range(2, count + 2)]
    return Input(["edit-over", PROJECT, "MAT 1:1", *(it.decode() for it in ids)], {PROJECT: project(conflicting(count + 1))}, b"\\v 1 b\n")


def arriving_late(count: int) -> Input:
    """An operation that names this many, and then these."""
    ids = [(at, b"a") for at in range(1, count + 1)]
    last = operation((count + 1, b"a"), "MAT", 1, 1, ids, text_of(1))
    return fold(rising([last]), rising([operation(it, "MAT", 1, 1, [], text_of(1)) for it in ids]))


def arriving_below(count: int) -> Input:
    """One segment with this many texts, and then as many whose ids are below those."""
    ids = [(at, b"a") for at in range(1, 2 * count + 1)]
    texts = [operation(it, "MAT", 1, 1, [], text_of(1)) for it in ids]
    return fold(rising(texts[count:]), rising(texts[:count]))


def replacing_oldest(count: int) -> Input:
    """One segment with this many texts, and as many operations more, each of which names the oldest that is shown."""
    old = [operation((at, b"a"), "MAT", 1, 1, [], text_of(1)) for at in range(1, count + 1)]
    new = [operation((count + at, b"a"), "MAT", 1, 1, [(at, b"a")], text_of(1)) for at in range(1, count + 1)]
    return fold(rising(old + new))


def awaited_falling(count: int) -> Input:
    """Operations of one segment that name ids which never come, the greatest first."""
    named = (operation((count + at, b"b"), "MAT", 1, 1, [(count - at, b"a")], text_of(1)) for at in range(1, count))
    return Input(["report", PROJECT], {PROJECT: project(rising(list(named)))})


def awaited(count: int) -> Input:
    """Operations that name ids which never come."""
    named = (operation((at, b"b"), "MAT", at % 999 + 1, 1, [(at - 1, b"a")], text_of(1)) for at in range(2, count + 2))
    return Input(["report", PROJECT], {PROJECT: project(rising(list(named)))})


def without_texts(count: int) -> Input:
    """Operations without their texts, of as many segments, each of which a later one of its segment names."""
    places = [((at, b"a"), at % 999 + 1, at // 999 % 999 + 1) for at in range(1, count + 1)]
    old = [thinned(operation(it, "MAT", chapter, verse, [], b"")) for it, chapter, verse in places]
    new = [
        operation((count + number, b"a"), "MAT", chapter, verse, [(number, b"a")], text_of(verse))
        for (number, _), chapter, verse in places
    ]
    return Input(["fold", "MAT"], given=FORMAT_2 + rising(old + new)[8:])


def all_without_texts(count: int) -> Input:
    """Operations of one segment without their texts, all of which the last one names."""
    ids = [(at, b"a") for at in range(1, count + 1)]
    old = [thinned(operation(it, "MAT", 1, 1, [], b"")) for it in ids]
    last = operation((count + 1, b"a"), "MAT", 1, 1, ids, text_of(1))
    return Input(["fold", "MAT"], given=FORMAT_2 + rising([*old, last])[8:])


def thinned(bytes_of: bytes) -> bytes:
    """An operation, whose text is empty, without it."""
    return bytes_of[:-9] + b"\0"


def name_of(place: int) -> bytes:
    """A replica's name."""
    return b"n%06d" % place


def many_names(count: int) -> bytes:
    """Operations of as many replicas."""
    return rising([operation((1, name_of(at)), "MAT", at % 999 + 1, 1, [], text_of(1)) for at in range(count)])


def lacking(count: int) -> Input:
    """A delta for a summary of every other replica."""
    names = [name_of(at) for at in range(0, count, 2)]
    ranges = b"".join(b"\x07" + it + struct.pack(">QQQ", 1, 1, 1) for it in names)
    summary = b"USFMSS1\n" + struct.pack(">Q", len(names)) + ranges
    return Input(["delta", PROJECT, "s"], {PROJECT: project(many_names(count)), "s": summary})


# --- Texts ---


def held(text: bytes) -> bytes:
    """The file of ana's project that holds a book of one verse."""
    head = operation((1, b"ana"), "MAT", 0, None, [], HEAD)
    chapter = operation((2, b"ana"), "MAT", 1, None, [], b"\\c 1\n\\p\n")
    verse = operation((3, b"ana"), "MAT", 1, 1, [], b"\\v 1 " + text)
    return project(rising([head, chapter, verse]))


def asked(command: str, text: bytes, *words: str, sheet: bytes = SHEET) -> Input:
    return Input([command, PROJECT, "MAT", "sheet", *words], {PROJECT: held(text), "sheet": sheet})


def imported(text: bytes) -> Input:
    return Input(["import", PROJECT, "book"], {PROJECT: project(rising([])), "book": text})


def words_of(count: int) -> bytes:
    """This many distinct words, that rise and fall in turn."""
    numbers = (at if at % 2 else count - at for at in range(count))
    return b" ".join("".join(chr(97 + int(digit)) for digit in "%07d" % it).encode() for it in numbers)


def composed(count: int) -> bytes:
    """A letter with this many marks above and below it in turn, which have to be put in order."""
    return ("a" + "\u0301\u0323" * (count // 2)).encode()


def records(count: int, kind: bytes) -> bytes:
    """A sheet with this many records more."""
    more = b"".join(b"\\Marker m%d\n\\Endmarker e%d\n\\StyleType %s\n" % (at, count - at, kind) for at in range(count))
    return SHEET + more


def words_under(count: int) -> Input:
    """This many marks whose style has as many words in OccursUnder."""
    under = b"\\OccursUnder " + b" ".join(b"w%d" % at for at in range(count))
    sheet = SHEET + b"\\Marker x\n\\Endmarker x*\n" + under + b"\n\\StyleType Character\n"
    return asked("check", b"\\x a\\x*" * count, sheet=sheet)


def falling_book(count: int) -> Input:
    """A book whose chapters and verses fall."""
    return imported(HEAD + b"".join(b"\\c %d\n\\v %d a\n" % (999 - at % 999, 999 - at // 999 % 999) for at in range(count)))


def many_verses(count: int) -> Input:
    """A book of this many verses."""
    chapters = (b"\\c %d\n" % at + b"".join(b"\\v %d a\n" % it for it in range(1, 201)) for at in range(1, count // 200 + 1))
    return imported(HEAD + b"".join(chapters))


def head_of(book: str) -> bytes:
    return b"\\id %s\n" % book.encode()


def heads(books: list[str]) -> bytes:
    """A project with the head of each of these books."""
    return project(rising([operation((at, b"a"), book, 0, None, [], head_of(book)) for at, book in enumerate(books, 1)]))


def codes(count: int) -> list[str]:
    """So many books, rising."""
    return [book_code(count - at) for at in range(1, count + 1)]


def many_books(command: str) -> Callable[[int], Input]:
    """A project with the head of each of so many books, and what is asked of it."""
    return lambda count: Input([command, PROJECT], {PROJECT: heads(codes(count))})


def many_files(count: int) -> Input:
    """A sync of so many books, each second of which has a file that is like it."""
    books = codes(count)
    files = {book + ".usfm": head_of(book) for book in books[::2]}
    return Input(["sync", PROJECT, "."], {PROJECT: heads(books), **files})


FAMILIES = [
    Family("one bundle, its chapters fall while its ids rise", 8_000, 80_000, falling_chapters),
    Family("one bundle, its verses fall while its ids rise", 2_600, 26_000, falling_verses),
    Family("bundles of one operation, their ids fall", 1_600, 16_000, falling_bundles),
    Family("each operation names all before it", 400, 1_265, naming_all),
    Family("one segment with many texts: folded", 10_000, 100_000, lambda n: fold(conflicting(n))),
    Family("one segment with many texts: report", 10_000, 100_000, lambda n: Input(["report", PROJECT], {PROJECT: project(conflicting(n))})),
    Family("one segment with many texts: shown", 10_000, 100_000, lambda n: Input(["shown", PROJECT, "MAT 1:1"], {PROJECT: project(conflicting(n))})),
    Family("one segment with many texts: an edit over all", 10_000, 100_000, lambda n: Input(["edit", PROJECT, "MAT 1:1"], {PROJECT: project(conflicting(n))}, b"\\v 1 b\n")),
    Family("one segment with many texts: an edit over given ids", 3_000, 30_000, edited_over),
    Family("one segment with many equal texts: an import since a bundle", 10_000, 100_000, changed_alike),
    Family("one segment with many equal texts: a first sync", 10_000, 100_000, synced_alike),
    Family("many segments of a book with two texts each: page", 1_000, 10_000, lambda n: Input(["page", PROJECT], {PROJECT: project(many_conflicts(n))})),
    Family("what is replaced arrives after what replaces it", 10_000, 100_000, arriving_late),
    Family("one segment with many texts, and as many with lower ids", 5_000, 50_000, arriving_below),
    Family("each operation names the oldest that is shown", 5_000, 50_000, replacing_oldest),
    Family("operations without their texts, each named by a later one", 10_000, 100_000, without_texts),
    Family("operations without their texts, all named by the last", 10_000, 100_000, all_without_texts),
    Family("ids that never come", 10_000, 100_000, awaited),
    Family("ids of one segment that never come, and fall", 10_000, 100_000, awaited_falling),
    Family("a delta among many replicas", 10_000, 100_000, lacking),
    Family("a summary of many replicas", 10_000, 100_000, lambda n: Input(["summary", PROJECT], {PROJECT: project(many_names(n))})),
    Family("nested marks: check", 100_000, 1_000_000, lambda n: asked("check", b"\\+nd" * n)),
    Family("nested marks: words", 100_000, 1_000_000, lambda n: asked("words", b"\\+nd a" * n)),
    Family("characters that are never closed: check", 100_000, 1_000_000, lambda n: asked("check", b"\\nd a" * n)),
    Family("notes that are never closed: check", 100_000, 1_000_000, lambda n: asked("check", b"\\f + \\nd a" * n)),
    Family("closing marks of nothing: check", 100_000, 1_000_000, lambda n: asked("check", b"\\nd*" * n)),
    Family("a lone backslash, many times: check", 100_000, 1_000_000, lambda n: asked("check", b"\\" * n)),
    Family("bridges that reach over all: check", 10_000, 100_000, lambda n: asked("check", b"\\v 1-999 a" * n)),
    Family("one word many times", 100_000, 1_000_000, lambda n: asked("words", b"abc " * n)),
    Family("many words", 10_000, 100_000, lambda n: asked("words", words_of(n))),
    Family("a letter with many marks", 10_000, 100_000, lambda n: asked("words", composed(n))),
    Family("a long needle that nearly occurs everywhere", 100_000, 1_000_000, lambda n: asked("find", b"a" * n, "a" * 10_000 + "b")),
    Family("a needle that occurs everywhere", 100_000, 1_000_000, lambda n: asked("find", b"a" * n, "a")),
    Family("a sheet of many records", 10_000, 100_000, lambda n: asked("check", b"a", sheet=records(n, b"Character"))),
    Family("a sheet of many milestones, looked up by what closes them", 10_000, 100_000, lambda n: asked("check", b"\\e5 a" * n, sheet=records(n, b"Milestone"))),
    Family("one line of a sheet that is very long", 100_000, 1_000_000, lambda n: asked("check", b"a", sheet=SHEET + b"\\Name " + b"# a" * n)),
    Family("marks with many words in OccursUnder", 1_000, 10_000, words_under),
    Family("many books: report", 4_000, 40_000, many_books("report")),
    Family("many books: status", 4_000, 40_000, many_books("status")),
    Family("many books: page", 4_000, 40_000, many_books("page")),
    Family("many books: check", 4_000, 40_000, many_books("check")),
    Family("many books, half of them with a file: sync", 2_000, 20_000, many_files),
    Family("a book whose chapters and verses fall: import", 10_000, 100_000, falling_book),
    Family("a book of many verses: import", 10_000, 100_000, many_verses),
]
