"""Books, keys of segments, names of replicas, ids, and the numbers after chapter and verse marks."""
import re
from typing import NamedTuple, Optional

from .faults import Fault

CANON = (
    "GEN EXO LEV NUM DEU JOS JDG RUT 1SA 2SA 1KI 2KI 1CH 2CH EZR NEH EST JOB PSA PRO ECC SNG ISA JER LAM "
    "EZK DAN HOS JOL AMO OBA JON MIC NAM HAB ZEP HAG ZEC MAL "
    "MAT MRK LUK JHN ACT ROM 1CO 2CO GAL EPH PHP COL 1TH 2TH 1TI 2TI TIT PHM HEB JAS 1PE 2PE 1JN 2JN 3JN "
    "JUD REV"
).split()

GREATEST_NUMBER = 10**15

BLANKS = b" \t\r\n"

CODE = re.compile(rb"[A-Z0-9]{3}")


class Verse(NamedTuple):
    """A verse of a chapter. No letter is the empty text, which comes before all letters."""

    number: int
    letter: str = ""


class Key(NamedTuple):
    """A segment of a book: the head of a chapter, which is the empty place, or one of its verses.

    Tuples are ordered as keys are: by chapter, the head before the verses, by number, and then by letter.
    """

    chapter: int
    place: tuple

    @property
    def is_head(self) -> bool:
        return self.place == ()


HEAD = ()
BOOK_HEAD = Key(0, HEAD)


class Id(NamedTuple):
    """An operation's id, ordered by number and then by the bytes of the name."""

    number: int
    name: str


class VerseMark(NamedTuple):
    """What is read after a verse's mark: the verse, the last one of its bridge, and the bytes these take."""

    first: Verse
    last: Optional[Verse]
    length: int


def book_rank(book: str) -> tuple[int, str]:
    """What books are ordered by: the canon first, then all other codes by their bytes."""
    return (CANON.index(book), "") if book in CANON else (len(CANON), book)


def read_book(word: str) -> str:
    """The book whose code a word is."""
    if not CODE.fullmatch(word.encode()):
        raise Fault(20)
    return word


def write_key(key: Key) -> str:
    """A key's text form."""
    if key.is_head:
        return str(key.chapter)
    return f"{key.chapter}:{key.place.number}{key.place.letter}"


def write_ref(book: str, key: Key) -> str:
    """The reference of a segment."""
    return f"{book} {write_key(key)}"


def read_ref(word: str) -> tuple[str, Key]:
    """The segment that a reference names."""
    data = word.encode()
    if not CODE.fullmatch(data[:3]):
        raise Fault(20)
    number = rb"(0|[1-9][0-9]{0,2})"
    found = re.fullmatch(rb" " + number + rb"(?::" + number + rb"([a-z]?))?", data[3:])
    if not found:
        raise Fault(21)
    chapter, verse, letter = found.groups()
    place = HEAD if verse is None else Verse(int(verse), letter.decode())
    return data[:3].decode(), Key(int(chapter), place)


def is_name(name: bytes) -> bool:
    """Whether bytes are a replica's name."""
    return re.fullmatch(rb"[a-z0-9-]{1,32}", name) is not None


def read_name(word: str) -> str:
    """The replica's name that a word is."""
    if not is_name(word.encode()):
        raise Fault(50)
    return word


def read_id(word: str) -> Id:
    """The id that a word spells as NUMBER:NAME."""
    found = re.fullmatch(rb"([1-9][0-9]*):(.*)", word.encode(), re.DOTALL)
    if not found or int(found[1]) > GREATEST_NUMBER or not is_name(found[2]):
        raise Fault(52)
    return Id(int(found[1]), found[2].decode())


# What a number ends before: the end, or anything but an ASCII letter or digit.
ENDS = rb"(?![A-Za-z0-9])"
CHAPTER = re.compile(rb"[ \t\r\n]+([0-9]{1,3})" + ENDS)
VERSE = re.compile(rb"[ \t\r\n]+([0-9]{1,3})([a-z]?)" + ENDS)
BRIDGE = re.compile(rb"-([0-9]{1,3})([a-z]?)" + ENDS)


def chapter_after(text: bytes) -> Optional[int]:
    """The chapter number at the start of the text after a mark, if there is one."""
    found = CHAPTER.match(text)
    return int(found[1]) if found else None


def verse_after(text: bytes) -> Optional[VerseMark]:
    """The verse number or bridge at the start of the text after a mark, if there is one."""
    found = VERSE.match(text)
    if not found:
        return None
    first = Verse(int(found[1]), found[2].decode())
    bridge = BRIDGE.match(text, found.end())
    if not bridge:
        return VerseMark(first, None, found.end())
    return VerseMark(first, Verse(int(bridge[1]), bridge[2].decode()), bridge.end())
