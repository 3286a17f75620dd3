"""A book to write in: its code, its file, and its verses."""
import re
from dataclasses import dataclass
from pathlib import Path

# The verses of the chapters of Matthew.
VERSES = (25, 23, 17, 25, 48, 34, 29, 34, 38, 42, 30, 50, 58, 36, 39, 28, 27, 35, 30, 34, 46, 46, 39, 51, 46, 75, 66, 20)


@dataclass(frozen=True)
class Verse:
    """A verse: its place, as a command names it, and its text in the book."""

    place: str
    number: int
    text: bytes


@dataclass(frozen=True)
class Book:
    """A book's code, its file, and the verses of it whose text can be replaced by another."""

    code: str
    content: bytes
    verses: list[Verse]

    def with_texts(self, texts: dict[int, bytes]) -> bytes:
        """The book in which some of the verses, by their places in the list, have other texts."""
        content, at = [], 0
        for place in sorted(texts):
            text = self.verses[place].text
            found = self.content.index(text, at)
            content += [self.content[at:found], texts[place]]
            at = found + len(text)
        return b"".join(content) + self.content[at:]


def made_book() -> Book:
    """A book with the chapters and verses of Matthew, and a text of a verse's usual length in each."""
    lines = ["\\id MAT", "\\h Matthew"]
    for chapter, count in enumerate(VERSES, start=1):
        lines += [f"\\c {chapter}", "\\p"]
        lines += [f"\\v {verse} {chapter}:{verse} " + "and it came to pass " * 6 for verse in range(1, count + 1)]
    return book_of("\n".join(lines).encode() + b"\n")


def read_book(path: Path) -> Book:
    return book_of(path.read_bytes())


def book_of(content: bytes) -> Book:
    """The book of a file that has its chapters in their order, with the verses that reach to the next one's mark."""
    code = content[4:7].decode()
    verses = []
    for chapter in re.finditer(rb"\\c (\d+)(?:(?!\\c ).)*", content, re.DOTALL):
        for verse in re.finditer(rb"\\v (\d+) (?:(?!\\v |\\c ).)*", chapter[0], re.DOTALL):
            verses.append(Verse(f"{code} {int(chapter[1])}:{int(verse[1])}", int(verse[1]), verse[0]))
    return Book(code, content, verses)
