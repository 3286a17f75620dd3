"""Tokens of a USFM text, the keys of its marks, its pieces, and which texts fit a segment."""
import re
from dataclasses import dataclass
from typing import NamedTuple, Optional, Sequence

from .faults import Fault
from .references import BOOK_HEAD, HEAD, Key, VerseMark, chapter_after, verse_after

MARK_OR_TEXT = re.compile(rb"\\(?P<nested>\+?)(?P<name>[A-Za-z0-9_-]*)(?P<closing>\*?)|[^\\]+")

OPENING = re.compile(rb"(?:\xef\xbb\xbf)?\\id[ \t\r\n]")
CODE_THAT_ENDS = re.compile(rb"([A-Z0-9]{3})(?:[ \t\r\n\\]|\Z)")


@dataclass(frozen=True)
class Token:
    """A mark or a text, and where it starts. A text has no name, and is neither nested nor closing."""

    start: int
    slice: bytes
    is_mark: bool
    name: bytes
    nested: bool
    closing: bool

    def is_opening(self, name: bytes) -> bool:
        """Whether it is the mark of this name, neither nested nor closing."""
        return self.is_mark and self.name == name and not self.nested and not self.closing


class Piece(NamedTuple):
    """A part of a book: the key that it has, where it starts, and its text."""

    key: Key
    start: int
    text: bytes


def tokens_of(text: bytes) -> list[Token]:
    """The marks of a text, and the texts between them."""
    tokens = []
    for found in MARK_OR_TEXT.finditer(text):
        nested, name, closing = found["nested"], found["name"], found["closing"]
        tokens.append(Token(found.start(), found[0], name is not None, name or b"", bool(nested), bool(closing)))
    return tokens


def text_after(tokens: Sequence[Token], index: int) -> bytes:
    """The text directly after a token, empty where a mark or the end follows."""
    after = tokens[index + 1 : index + 2]
    return after[0].slice if after and not after[0].is_mark else b""


def chapter_at(tokens: Sequence[Token], index: int) -> Optional[int]:
    """The number of a chapter's mark at this place, if it is one that has a number."""
    return chapter_after(text_after(tokens, index)) if tokens[index].is_opening(b"c") else None


def verse_at(tokens: Sequence[Token], index: int) -> Optional[VerseMark]:
    """The number or bridge of a verse's mark at this place, if it is one that has a number."""
    return verse_after(text_after(tokens, index)) if tokens[index].is_opening(b"v") else None


def keys_of_marks(tokens: Sequence[Token], chapter: int = 0) -> list[Optional[Key]]:
    """For each token the key of the mark that it is, and none where it has none.

    A verse is in the greatest chapter before it, at least the one that is given.
    """
    keys: list[Optional[Key]] = []
    for index in range(len(tokens)):
        number = chapter_at(tokens, index)
        verse = verse_at(tokens, index)
        if number is not None:
            keys.append(Key(number, HEAD))
            chapter = max(chapter, number)
        elif verse is not None:
            keys.append(Key(chapter, verse.first))
        else:
            keys.append(None)
    return keys


def openers(tokens: Sequence[Token]) -> list[int]:
    """The places of the marks that open a piece: their key is above the book's head and all keys before."""
    greatest = BOOK_HEAD
    opening = []
    for index, key in enumerate(keys_of_marks(tokens)):
        if key is not None and key > greatest:
            opening.append(index)
            greatest = key
    return opening


def cut(text: bytes) -> list[Piece]:
    """The pieces of a book. The first has the key of its head and starts at 0; it may be empty."""
    tokens = tokens_of(text)
    keys = keys_of_marks(tokens)
    opening = openers(tokens)
    starts = [(BOOK_HEAD, 0)] + [(keys[it], tokens[it].start) for it in opening]
    ends = [start for _, start in starts[1:]] + [len(text)]
    return [Piece(key, start, text[start:end]) for (key, start), end in zip(starts, ends)]


def key_of_place(pieces: Sequence[Piece], place: int) -> Key:
    """The key of the piece that holds a byte."""
    return [it.key for it in pieces if it.start <= place][-1]


def fits(book: str, key: Key, text: bytes) -> bool:
    """Whether a text is one that a segment may have."""
    tokens = tokens_of(text)
    if key == BOOK_HEAD:
        return begins_book(book, text) and not openers(tokens)
    if text == b"":
        return True
    keys = keys_of_marks(tokens, key.chapter)
    return keys[0] == key and not any(later is not None and later > key for later in keys[1:])


def begins_book(book: str, text: bytes) -> bool:
    """Whether a text begins as the head of this book does."""
    try:
        return book_of(text) == book
    except Fault:
        return False


def book_of(text: bytes) -> str:
    """The book that a text begins with."""
    opening = OPENING.match(text)
    if not opening:
        raise Fault(30)
    code = CODE_THAT_ENDS.match(text, opening.end())
    if not code:
        raise Fault(20)
    return code[1].decode()
