"""What `check`, `find` and `words` report of a book, of all or of books' files, by a style sheet that is given or the program's own."""
import re
from dataclasses import dataclass
from pathlib import Path
from typing import Iterator, Optional, Sequence

from . import searches
from .checks import check
from .faults import Fault
from .folders import books_of
from .operations import Set, export
from .references import read_book, write_key, write_ref
from .sheets import Sheet, read_sheet
from .tokens import MARK_OR_TEXT, book_of

OWN_SHEET = Path(__file__).resolve().parents[3] / "samples/usfm.sty"
# The most bytes of a line that are shown on either side of what is found.
REACH = 200
COMMANDS = ("check", "find", "words")


@dataclass(frozen=True)
class Look:
    """The words of a line."""

    command: str
    project: str
    book: Optional[str]
    sheet: Optional[str]
    needle: bytes
    with_text: bool
    by_lines: bool
    # Books' files in the place of a project; none where there is one.
    files: tuple[str, ...] = ()


def look_of(words: Sequence[str]) -> Optional[Look]:
    """What a line asks for, if it has the shape of one."""
    command, given, sheets, flags, files = words[0], [], [], set(), None
    rest = list(words[1:])
    while rest:
        word = rest.pop(0)
        if word == "--sheet":
            sheets.append(rest.pop(0) if rest else None)
        elif word == "--files" and files is None:
            files = []
            while rest and not rest[0].startswith("--"):
                files.append(rest.pop(0))
        elif word in ("--text", "--lines") and command != "words":
            flags.add(word)
        elif word.startswith("--"):
            return None
        else:
            given.append(word)
    shown = "--text" in flags, "--lines" in flags
    if files is not None:
        needle = given.pop() if command == "find" and given else ""
        if not files or given or len(sheets) > 1 or None in sheets:
            return None
        return Look(command, "", None, *(sheets or [None]), needle.encode(), *shown, tuple(files))
    needle = given.pop() if command == "find" and len(given) > 1 else None
    if command == "find" and needle is None or not 1 <= len(given) <= 3:
        return None
    sheets += given[2:]
    if len(sheets) > 1 or None in sheets:
        return None
    book = read_book(given[1]) if len(given) > 1 else None
    return Look(command, given[0], book, *(sheets or [None]), (needle or "").encode(), *shown)


def reported(look: Look, held: Set, data: Optional[bytes]) -> bytes:
    """What is written of the operations of a project, by the bytes of a sheet."""
    sheet = read_sheet(OWN_SHEET.read_bytes() if data is None else data)
    if look.book is None and look.command == "find" and look.needle == b"":
        raise Fault(100)
    books = books_of(held) if look.book is None else [look.book]
    texts = [(book, export(held, book)) for book in books]
    if look.command == "words":
        return words(texts, sheet, look.book is None)
    found = (places(look, book, text, sheet) for book, text in texts)
    return b"".join(line for lines in found for line in lines)


def reported_of_files(look: Look, files: Sequence[tuple[str, bytes]], data: Optional[bytes]) -> bytes:
    """What is written of books' files, each with its name, by the bytes of a sheet."""
    sheet = read_sheet(OWN_SHEET.read_bytes() if data is None else data)
    if look.command == "find" and look.needle == b"":
        raise Fault(100)
    texts = [(book_of(text), text) for _, text in files]
    if look.command == "words":
        return words(texts, sheet, True)
    found = (places(look, book, text, sheet, name) for (name, _), (book, text) in zip(files, texts))
    return b"".join(line for lines in found for line in lines)


def places(look: Look, book: str, text: bytes, sheet: Sheet, file: str = "") -> Iterator[bytes]:
    """The lines of what is found in a book, or in the file of one."""
    if look.command == "check":
        for code, start, key in check(text, sheet):
            length = len(MARK_OR_TEXT.match(text, start)[0])
            front = located(look, file, write_ref(book, key), code, text, start) or f"{write_ref(book, key)} {code} {start}"
            yield line(look, front, text, start, length)
    else:
        for key, start in searches.find(text, sheet, look.needle):
            front = located(look, file, write_ref(book, key), "found", text, start) or f"{write_ref(book, key)} {start}"
            yield line(look, front, text, start, len(look.needle))


def located(look: Look, file: str, reference: str, what: str, text: bytes, start: int) -> str:
    """A place by its line and column, if that is asked for: in a file, or in the export of a book."""
    if not look.by_lines:
        return ""
    before = text[:start].decode().removeprefix("\ufeff").split("\n")
    place = f"{len(before)}:{len(before[-1]) + 1}: {what}"
    return f"{file}:{place} {reference}" if file else f"{reference}:{place}"


def line(look: Look, front: str, text: bytes, start: int, length: int) -> bytes:
    """The line of a place, with the line of the text if that is asked for."""
    return front.encode() + (b" " + excerpt(text, start, length) if look.with_text else b"") + b"\n"


def excerpt(text: bytes, start: int, length: int) -> bytes:
    """The line of a place, with what is there in brackets, as far as it is shown."""
    before = re.split(rb"[\r\n]", text[max(start - REACH, 0) : start])[-1].lstrip(bytes(range(128, 192)))
    end = start + length + REACH
    while end < len(text) and 128 <= text[end] < 192:
        end += 1
    rest = re.split(rb"[\r\n]", text[start:end])[0]
    return before + b"[" + rest[:length] + b"]" + rest[length:]


def words(texts: Sequence[tuple[str, bytes]], sheet: Sheet, with_books: bool) -> bytes:
    """The words of books, each with its book if they are of all."""
    rows = []
    for rank, (book, text) in enumerate(texts):
        for form, keys in searches.words(text, sheet):
            front = [form, book.encode()] if with_books else [form]
            rows.append((form, rank, b" ".join(front + [write_key(it).encode() for it in keys]) + b"\n"))
    return b"".join(row for _, _, row in sorted(rows))
