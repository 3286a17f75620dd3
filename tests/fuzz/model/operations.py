"""Operations, and sets of them: what a segment shows, what is picked for a book, and the conflict report."""
from dataclasses import dataclass, replace
from typing import Iterable, Optional

from .faults import Fault
from .references import HEAD, Id, Key, book_rank, write_ref


@dataclass(frozen=True)
class Operation:
    """One text that was given to a segment, and the ids that it replaces.

    The text is none where it was left out since another operation of the segment replaces it.
    """

    id: Id
    book: str
    key: Key
    replaced: tuple[Id, ...]
    text: Optional[bytes]


# The operations that are held, by their ids.
Set = dict[Id, Operation]


def set_of(operations: Iterable[Operation]) -> Set:
    """A set of operations of different ids."""
    return {it.id: it for it in operations}


def without_text(operation: Operation) -> Operation:
    """An operation whose text is left out."""
    return replace(operation, text=None)


def agree(one: Operation, other: Operation) -> bool:
    """Whether two operations of one id can be the same, which a text that was left out does not hinder."""
    if one.text is None or other.text is None:
        return without_text(one) == without_text(other)
    return one == other


def join(held: Set, more: Set) -> Set:
    """The union of two sets, refused with the least id under which they have operations that do not agree.

    What one of the two has without its text stays without it.
    """
    clashes = [id for id in more if id in held and not agree(held[id], more[id])]
    if clashes:
        raise Fault(51, *min(clashes))
    left_out = {id: it for id, it in held.items() if it.text is None}
    return {**held, **more, **left_out}


def replaced_in(held: Set) -> Set:
    """The operations that a held operation of their segment names."""
    named = {(it.book, it.key, id) for it in held.values() for id in it.replaced}
    return {id: it for id, it in held.items() if (it.book, it.key, id) in named}


def thin(held: Set) -> Set:
    """The set without the texts of what is replaced."""
    return {**held, **{id: without_text(it) for id, it in replaced_in(held).items()}}


def segment(held: Set, book: str, key: Key) -> list[Operation]:
    """The operations of a segment."""
    return [it for it in held.values() if it.book == book and it.key == key]


def shown(held: Set, book: str, key: Key) -> list[Operation]:
    """The operations of a segment whose ids none of the segment names, rising."""
    members = segment(held, book, key)
    named = {id for it in members for id in it.replaced}
    return sorted((it for it in members if it.id not in named), key=lambda it: it.id)


def text_of_segment(held: Set, book: str, key: Key) -> bytes:
    """The text of the greatest id that a segment shows, empty if it shows none."""
    showing = shown(held, book, key)
    return showing[-1].text if showing else b""


def keys_of(held: Set, book: str) -> list[Key]:
    """The keys of a book with an operation, rising."""
    return sorted({it.key for it in held.values() if it.book == book})


def has_chapter_line(held: Set, book: str, key: Key) -> bool:
    """Whether a chapter's line is picked for a segment.

    That is so for the head of a chapter from 1 on without a text, where a verse of the chapter has a text.
    """
    if not key.is_head or key.chapter < 1 or text_of_segment(held, book, key) != b"":
        return False
    verses = [it for it in keys_of(held, book) if it.chapter == key.chapter and not it.is_head]
    return any(text_of_segment(held, book, it) != b"" for it in verses)


def pick(held: Set, book: str, key: Key) -> bytes:
    """The text that a book has for a segment."""
    if has_chapter_line(held, book, key):
        return b"\\c %d\n" % key.chapter
    return text_of_segment(held, book, key)


def picked_keys(held: Set, book: str) -> list[Key]:
    """The keys of a book that may have a picked text: with an operation, or heads of their chapters."""
    keys = keys_of(held, book)
    return sorted(set(keys) | {Key(it.chapter, HEAD) for it in keys})


def has_book(held: Set, book: str) -> bool:
    """Whether an operation is of this book."""
    return any(it.book == book for it in held.values())


def export(held: Set, book: str) -> bytes:
    """The text of a book: its picked texts, by rising key."""
    if not has_book(held, book):
        raise Fault(82)
    return b"".join(pick(held, book, key) for key in picked_keys(held, book))


def awaited(held: Set) -> list[Id]:
    """The ids that are named and not held, rising."""
    return sorted({id for it in held.values() for id in it.replaced if id not in held})


def report(held: Set) -> bytes:
    """The conflict report."""
    told = b""
    segments = {(it.book, it.key) for it in held.values()}
    for book, key in sorted(segments, key=lambda it: (book_rank(it[0]), it[1])):
        told += conflict(held, book, key)
    for id in awaited(held):
        told += b"awaited %d %s\n" % (id.number, id.name.encode())
    return told


def conflict(held: Set, book: str, key: Key) -> bytes:
    """What a report says of a segment: nothing where it shows fewer than two texts."""
    # Later ids take the place of earlier ones that have the same text.
    greatest = {it.text: it.id for it in shown(held, book, key)}
    if len(greatest) < 2:
        return b""
    told = b"conflict %s %d\n" % (write_ref(book, key).encode(), len(greatest))
    for text, id in sorted(greatest.items(), key=lambda it: it[1], reverse=True):
        told += b"text %d %s %d\n%s\n" % (id.number, id.name.encode(), len(text), text)
    return told
