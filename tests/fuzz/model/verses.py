"""What a sync says by segments and names: what came in, what the files removed, and whose late texts they replaced."""
from typing import Sequence

from .operations import Operation, Set, has_book, shown
from .references import Id, Key, book_rank, write_ref

MOST_LINES = 20

Segment = tuple[str, Key]


def in_order(operations: Sequence[Operation]) -> list[Segment]:
    """The segments of operations, in the order of the report."""
    return sorted({(it.book, it.key) for it in operations}, key=lambda it: (book_rank(it[0]), it[1]))


def texts_of(held: Set, place: Segment) -> list:
    """The texts that a segment shows; None stands for one that was left out."""
    return [it.text for it in shown(held, *place)]


def few(lines: list[str]) -> list[str]:
    """At most twenty lines, and how many more there are."""
    more = len(lines) - MOST_LINES
    return lines[:MOST_LINES] + ([f".. and {more} more"] if more > 0 else [])


def written(word: str, place: Segment, makers: Sequence[str]) -> str:
    return " ".join([word, write_ref(*place), *sorted(set(makers))])


def verse_lines(known: Set, brought: Set, held: Set, own: str, base: Set, older: Sequence[Set]) -> bytes:
    """The lines of a sync, by what the project knew, held before the files were taken in, and holds now; by its name; and by what the
    files were written from, and were before."""
    came, removed, replaced = [], [], []
    old = {id: it for id, it in held.items() if id in known}
    without_files = {id: it for id, it in held.items() if id in brought}
    made = [it for id, it in held.items() if id not in brought]
    new = [it for id, it in without_files.items() if id not in known]
    for place in in_order(new):
        if texts_of(old, place) != texts_of(without_files, place):
            came.append(written("came", place, [it.id.name for it in new if (it.book, it.key) == place]))
    for place in in_order(made):
        if any(texts_of(without_files, place)) and not any(texts_of(held, place)):
            removed.append(written("removed", place, []))
        named = {id for it in made if (it.book, it.key) == place for id in it.replaced}
        makers = [it.id.name for it in shown(base, *place) if it.id in named and it.id.name != own and is_late(older, place, it.id)]
        if makers:
            replaced.append(written("replaced", place, makers))
    return "".join(f"{it}\n" for it in few(came) + few(removed) + few(replaced)).encode()


def is_late(older: Sequence[Set], place: Segment, id: Id) -> bool:
    """Whether one of the older bases that have the book does not show an operation."""
    return any(has_book(held, place[0]) and id not in [it.id for it in shown(held, *place)] for held in older)
