"""Merges of three files of a book: what two replicas make of them, and the file that is written."""
import re
from typing import NamedTuple

from .bundles import write_bundle
from .likes import MARK, is_crlf, is_mixed, without_mark
from .operations import Set, conflict, export, picked_keys, pick, shown
from .references import Key, write_ref
from .replicas import Replica
from .tokens import book_of, cut

Texts = dict[Key, bytes]


class OtherBook(Exception):
    """A side begins with another book than BASE."""


class Merged(NamedTuple):
    """The book, and what is held of it."""

    book: str
    held: Set

    def conflicts(self) -> list[Key]:
        """The keys that show several texts."""
        return [key for key in sorted(picked_keys(self.held, self.book)) if conflict(self.held, self.book, key)]


def wording(text: bytes) -> bytes:
    """A text but for U+FEFF at its front, blanks at the ends of its lines, and line ends at its end."""
    return re.sub(rb"[ \t\r]+(?=\n)", b"", re.sub(rb"[ \t\r\n]+\Z", b"", without_mark(text)))


def same_wording(one: bytes, other: bytes) -> bool:
    return wording(one) == wording(other)


def texts_of(file: bytes) -> Texts:
    return {it.key: it.text for it in cut(file)}


def theirs_text(base: bytes, ours: bytes, theirs: bytes) -> bytes:
    """What a piece of THEIRS is read as."""
    if base in (ours, theirs):
        return theirs
    if same_wording(theirs, ours):
        return ours
    return base if same_wording(theirs, base) else theirs


def ours_text(base: bytes, ours: bytes, theirs: bytes) -> bytes:
    """What a piece of OURS is read as."""
    return base if same_wording(ours, base) and not same_wording(theirs, base) else ours


def read_sides(base: bytes, ours: bytes, theirs: bytes) -> tuple[bytes, bytes]:
    """OURS and THEIRS as they are read."""
    was, mine, other = map(texts_of, (base, ours, theirs))
    as_ours = [ours_text(was.get(key, b""), text, other.get(key, b"")) for key, text in mine.items()]
    as_theirs = [theirs_text(was.get(key, b""), mine.get(key, b""), text) for key, text in other.items()]
    return b"".join(as_ours), b"".join(as_theirs)


def merge(base: bytes, ours: bytes, theirs: bytes) -> Merged:
    """The merge, or the first refusal: of a file that is no book's, or of a side of another book."""
    book, *sides = map(book_of, (base, ours, theirs))
    if sides != [book, book]:
        raise OtherBook
    as_ours, as_theirs = read_sides(base, ours, theirs)
    first = Replica("theirs", {})
    first.import_book(base)
    made = write_bundle(first.held)
    first.import_book(as_theirs)
    second = Replica("ours", {})
    second.receive(write_bundle(first.held))
    second.import_since(as_ours, made)
    return Merged(book, second.held)


def remarks(merged: Merged, key: Key) -> bytes:
    """The texts of a key but the one that is picked, as remarks."""
    made = b""
    texts: list[bytes] = []
    for it in reversed(shown(merged.held, merged.book, key)):
        if it.text in texts:
            continue
        texts.append(it.text)
        if len(texts) > 1:
            front = f"\\rem conflict {write_ref(merged.book, key)} {it.id.name}: ".encode()
            lines = it.text[: -1 if it.text.endswith(b"\n") else None].split(b"\n")
            made += b"".join(front + line.replace(b"\\", b"/") + b"\n" for line in lines)
    return made


def marked_export(merged: Merged) -> bytes:
    """The book, with remarks after each picked text that is in conflict."""
    made = b""
    for key in sorted(picked_keys(merged.held, merged.book)):
        text, others = pick(merged.held, merged.book, key), remarks(merged, key)
        made += text + (b"\n" if others and text and not text.endswith(b"\n") else b"") + others
    return made


def in_own_manner(was: bytes, text: bytes) -> bytes:
    """A text with U+FEFF and line ends as another one has them; where that one has some of each, these stay."""
    made = without_mark(text)
    if not is_mixed(was):
        made = made.replace(b"\r\n", b"\n").replace(b"\n", b"\r\n" if is_crlf(was) else b"\n")
    return (MARK if was.startswith(MARK) else b"") + made


def merged_file(merged: Merged, ours: bytes, remarked: bool = False) -> bytes:
    """The file of a merge."""
    return in_own_manner(ours, marked_export(merged) if remarked else export(merged.held, merged.book))
