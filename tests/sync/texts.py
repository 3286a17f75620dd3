"""What people wrote in files, and who has seen it: a second implementation that knows only files and texts.

A file is a list of segments: its head, the line of each chapter, and its verses. A person who changes a segment in a file
replaces what was there, and nothing else: so a text may be gone from a copy only if the copy has a change of it
by somebody whose file had exactly that text there.
"""
import re
from dataclasses import dataclass, field

# A segment: its reference, as `MAT 1:2`.
Place = str
# A file: the text of each of its segments, in the file's order.
Book = dict[Place, str]
MARK = re.compile(r"\\(id|c|v) (\S+)")


def cut(text: str) -> Book:
    """The segments of a file whose lines each begin with `\\id`, `\\c` or `\\v`."""
    book: Book = {}
    code, chapter = "", "0"
    for line in text.splitlines(keepends=True):
        kind, word = MARK.match(line).groups()
        if kind == "id":
            code = word
        elif kind == "c":
            chapter = word
        place = f"{code} {chapter}:{word}" if kind == "v" else f"{code} {chapter}"
        book[place] = book.get(place, "") + line
    return book


def join(book: Book) -> str:
    return "".join(book.values())


def order(place: Place) -> tuple[int, int]:
    chapter, _, verse = place.split(" ")[1].partition(":")
    return int(chapter), int(verse or 0)


def in_order(book: Book) -> Book:
    return {place: book[place] for place in sorted(book, key=order)}


@dataclass(frozen=True)
class Change:
    """A change that somebody made of a segment in a file: what stood there, and what stands there now; the texts that
    are not there are empty. It replaces the changes that its author had by then and whose text stood there."""

    number: int
    place: Place
    was: str
    now: str
    replaced: frozenset[int]


@dataclass
class Copy:
    """What a person has: the changes that came to them, their own among them."""

    changes: dict[int, Change] = field(default_factory=dict)

    def standing(self, place: Place) -> list[Change]:
        """The changes of a segment that no change replaces which the copy has."""
        of_place = [it for it in self.changes.values() if it.place == place]
        gone = {number for it in of_place for number in it.replaced}
        return [it for it in of_place if it.number not in gone]

    def owed(self, place: Place) -> set[str]:
        """The texts of a segment that have to be shown. Where two people wrote one text, and neither had the other's change, the file that is
        taken in later makes nothing, since its text is shown. So who replaces the one change replaces the text."""
        of_place = [it for it in self.changes.values() if it.place == place]
        gone = {number for it in of_place for number in it.replaced}
        twice = [it for it in of_place if it.number in gone]
        return {it.now for it in self.standing(place) if not any(one.now == it.now and self.are_apart(one, it) for one in twice)}

    def are_apart(self, one: Change, other: Change) -> bool:
        """Whether neither of two changes replaced the other, or what replaced it."""
        return one.number not in self.before(other) and other.number not in self.before(one)

    def before(self, change: Change) -> set[int]:
        """What a change replaced, and what that replaced, and so on."""
        found: set[int] = set()
        left = [change]
        while left:
            new = [it for it in left.pop().replaced if it not in found]
            found.update(new)
            left += [self.changes[it] for it in new if it in self.changes]
        return found

    def places(self) -> set[Place]:
        return {it.place for it in self.changes.values()}

    def take(self, other: "Copy") -> None:
        self.changes.update(other.changes)


class Writing:
    """All changes that were made, by whomever."""

    def __init__(self) -> None:
        self.made: list[Change] = []

    def change(self, copy: Copy, before: Book, after: Book) -> None:
        """A person's file was this, and is now that."""
        for place in sorted(before.keys() | after.keys(), key=order):
            was, now = before.get(place, ""), after.get(place, "")
            if was != now:
                seen = frozenset(it.number for it in copy.standing(place) if it.now == was)
                made = Change(len(self.made), place, was, now, seen)
                self.made.append(made)
                copy.changes[made.number] = made

    def texts(self, place: Place) -> set[str]:
        """All texts that anybody ever wrote there."""
        return {it.now for it in self.made if it.place == place}
