"""What each command does to a replica, and what it writes."""
from dataclasses import dataclass
from typing import Sequence

from .bundles import (
    outside,
    read_bundle,
    read_project,
    read_summary,
    read_whole_bundle,
    summary_of,
    write_bundle,
    write_project,
    write_summary,
    Source,
)
from .faults import Fault, text_of
from .operations import Operation, Set, export, has_book, has_chapter_line, join, pick, picked_keys, report
from .operations import set_of, shown, thin
from .references import BOOK_HEAD, GREATEST_NUMBER, Id, Key
from .tokens import book_of, cut, fits


@dataclass
class Replica:
    """A name and the operations that are held. A refused call changes nothing."""

    name: str
    held: Set

    def import_book(self, data: bytes) -> bytes:
        """Takes a book's file in by the edits that are due."""
        text = text_of(data)
        book = book_of(text)
        pieces = {it.key: it.text for it in cut(text)}
        keys = sorted(set(picked_keys(self.held, book)) | set(pieces))
        due = [key for key in keys if self.is_due(book, key, pieces)]
        if due and self.greatest_number() + len(due) > GREATEST_NUMBER:
            raise Fault(81)
        edits = []
        for number, key in enumerate(due, start=self.greatest_number() + 1):
            replaced = tuple(it.id for it in shown(self.held, book, key))
            edits.append(Operation(Id(number, self.name), book, key, replaced, pieces.get(key, b"")))
        self.held = join(self.held, set_of(edits))
        return b"added %d\n" % len(edits)

    def import_since(self, data: bytes, bundle: bytes) -> bytes:
        """Takes in what was changed in a book's file since it was written from a bundle, and the bundle."""
        text = text_of(data)
        base = Replica(self.name, read_whole_bundle(bundle))
        book = book_of(text)
        pieces = {it.key: it.text for it in cut(text)}
        united = Replica(self.name, join(self.held, base.held))
        changes = []
        for key in sorted(set(picked_keys(united.held, book)) | set(pieces)):
            stood = base.stood(book, key)
            seen = tuple(it.id for it in shown(united.held, book, key) if it.id in stood)
            now = pieces.get(key, b"")
            is_there = any(it.text == now for it in shown(united.held, book, key))
            if base.is_due(book, key, pieces) and (seen or not is_there):
                changes.append((key, seen, now))
        first = united.greatest_number() + 1
        if changes and first + len(changes) - 1 > GREATEST_NUMBER:
            raise Fault(81)
        edits = [
            Operation(Id(number, self.name), book, key, seen, now)
            for number, (key, seen, now) in enumerate(changes, start=first)
        ]
        self.held = join(united.held, set_of(edits))
        return b"added %d\n" % len(edits)

    def stood(self, book: str, key: Key) -> set[Id]:
        """The ids of a segment whose text stood in a file that was written from what is held."""
        showing = shown(self.held, book, key)
        return {it.id for it in showing if it.text == showing[-1].text}

    def is_due(self, book: str, key: Key, pieces: dict[Key, bytes]) -> bool:
        """Whether an import of these pieces has to edit a segment.

        A chapter's line that is in the file has to be given to the head where the file has no verse of
        the chapter, since it would be picked no more.
        """
        if pick(self.held, book, key) != pieces.get(key, b""):
            return True
        has_verse = any(it.chapter == key.chapter and not it.is_head for it in pieces)
        return has_chapter_line(self.held, book, key) and key in pieces and not has_verse

    def greatest_number(self) -> int:
        """The greatest number that is held, 0 if none is."""
        return max((id.number for id in self.held), default=0)

    def edit(self, book: str, key: Key, data: bytes) -> bytes:
        """Gives a segment a text, over all that it shows."""
        text = text_of(data)
        self.judge_edit(book, key, text)
        return self.make_edit(book, key, text, [it.id for it in shown(self.held, book, key)])

    def edit_over(self, book: str, key: Key, data: bytes, ids: Sequence[Id]) -> bytes:
        """Gives a segment a text, over given ids that it shows."""
        text = text_of(data)
        self.judge_edit(book, key, text)
        showing = [it.id for it in shown(self.held, book, key)]
        for id in ids:
            if id not in showing:
                raise Fault(83, *id)
        return self.make_edit(book, key, text, ids)

    def edit_with(self, book: str, key: Key, of: Id, ids: Sequence[Id]) -> bytes:
        """Gives a segment the text of an operation that it shows, over given ids that it shows."""
        for it in shown(self.held, book, key):
            if it.id == of:
                return self.edit_over(book, key, it.text, ids)
        raise Fault(83, *of)

    def judge_edit(self, book: str, key: Key, text: bytes) -> None:
        """Refuses a text that does not fit, and a segment of a book that is not begun."""
        if not fits(book, key, text):
            raise Fault(80)
        if key != BOOK_HEAD and not has_book(self.held, book):
            raise Fault(82)

    def make_edit(self, book: str, key: Key, text: bytes, ids: Sequence[Id]) -> bytes:
        """Makes the operation of an edit that was judged."""
        number = self.greatest_number() + 1
        if number > GREATEST_NUMBER:
            raise Fault(81)
        made = Operation(Id(number, self.name), book, key, tuple(sorted(set(ids))), text)
        self.held = join(self.held, set_of([made]))
        return b"made %d %s\n" % (number, self.name.encode())

    def receive(self, data: bytes) -> bytes:
        """Takes a bundle in."""
        more = read_whole_bundle(data)
        united = join(self.held, more)
        new = len(united) - len(self.held)
        self.held = united
        return b"new %d\n" % new

    def thin(self) -> bytes:
        """Leaves out the texts of what is replaced."""
        thinned = thin(self.held)
        newly = sum(it != thinned[id] for id, it in self.held.items())
        self.held = thinned
        return b"thinned %d\n" % newly

    def shown(self, book: str, key: Key) -> bytes:
        """Says what a segment shows."""
        told = b""
        for it in shown(self.held, book, key):
            told += b"op %d %s %d\n%s\n" % (it.id.number, it.id.name.encode(), len(it.text), it.text)
        return told

    def send(self) -> bytes:
        """The bundle of all that is held."""
        return write_bundle(self.held)

    def summary(self) -> bytes:
        """The summary of all that is held."""
        return write_summary(summary_of(self.held))

    def delta(self, data: bytes) -> bytes:
        """The bundle of what a summary does not have."""
        return write_bundle(outside(self.held, read_summary(data)))

    def export(self, book: str) -> bytes:
        """The text of a book."""
        return export(self.held, book)

    def report(self) -> bytes:
        """The conflict report."""
        return report(self.held)


def load(data: bytes) -> Replica:
    """The replica of a project file."""
    return Replica(*read_project(data))


def save(replica: Replica) -> bytes:
    """The project file of a replica."""
    return write_project(replica.name, replica.held)


def fold(data: bytes, book: str) -> bytes:
    """The text of a book out of bundles one after another."""
    return export(gathered(data), book)


def combine_stream(data: bytes) -> bytes:
    """The one bundle of bundles one after another."""
    return write_bundle(gathered(data))


def gathered(data: bytes) -> Set:
    """What bundles one after another have together. Each is joined before the next is read."""
    held: Set = {}
    source = Source(data)
    while not source.is_at_end:
        held = join(held, read_bundle(source))
    return held
