"""What was in a project, what changed in it since some ids were known, and which texts are had back."""
from dataclasses import dataclass
from typing import Optional, Sequence

from .bundles import PROJECT_MAGIC, SUMMARY_MAGIC, Summary, is_covered, read_project, read_summary
from .bundles import read_whole_bundle, summary_of
from .faults import Fault
from .operations import Operation, Set, has_book, segment, shown, text_of_segment
from .references import Id, Key, book_rank, read_book, read_id, read_ref, write_ref
from .replicas import Replica

COMMANDS = ("history", "changes", "restore")
# The options of each command that have no value.
FLAGS = {"history": ("--chapter",), "changes": ("--chapter", "--text"), "restore": ("--chapter", "--all", "--try")}

# A book, perhaps with a segment of it.
Name = tuple[str, Optional[Key]]
Segment = tuple[str, Key]


@dataclass(frozen=True)
class Past:
    """The words of a line."""

    command: str
    project: str
    since: Optional[str]
    ids: list[Id]
    names: list[Name]
    flags: frozenset[str]

    def has(self, book: str, key: Key) -> bool:
        """Whether a segment is named: each one is where there is no name."""
        return not self.names or any(self.is_in(name, book, key) for name in self.names)

    def is_in(self, name: Name, book: str, key: Key) -> bool:
        if name[0] != book or name[1] is None:
            return name[0] == book
        return name[1].chapter == key.chapter if "--chapter" in self.flags else name[1] == key


def past_of(words: Sequence[str]) -> Optional[Past]:
    """What a line asks for, if it has the shape of one."""
    command, given, since, flags = words[0], [], [], []
    rest = iter(words[1:])
    for word in rest:
        if word == "--since" and command != "history":
            since.append(next(rest, None))
        elif word in FLAGS[command]:
            flags.append(word)
        elif word.startswith("--"):
            return None
        else:
            given.append(word)
    if not given or len(since) > 1 or None in since or len(set(flags)) < len(flags):
        return None
    named, is_all = given[1:], "--all" in flags
    if command == "history" and not named or command == "changes" and not since:
        return None
    by_id = command == "restore" and not since
    if by_id and (not named or is_all or "--chapter" in flags):
        return None
    if command == "restore" and since and is_all == bool(named):
        return None
    ids = [read_id(it) for it in named] if by_id else []
    names = [] if by_id else [read_name(it) for it in named]
    return Past(command, given[0], since[0] if since else None, ids, names, frozenset(flags))


def read_name(word: str) -> Name:
    """A book, or a segment."""
    return (read_book(word), None) if len(word.encode()) == 3 else read_ref(word)


def told(past: Past, replica: Replica, data: Optional[bytes]) -> bytes:
    """What a line writes about a project, by the bytes of the file since whose ids it asks. It may edit the project."""
    if past.ids:
        return b"".join(restored(replica, id) for id in past.ids)
    if not all(has_book(replica.held, book) for book, _ in past.names):
        raise Fault(82)
    if past.command == "history":
        return b"".join(history(replica.held, *it) for it in named_segments(past, replica.held))
    known = covered(data)
    if past.command == "changes":
        return changes(past, replica.held, known)
    return restored_since(past, replica, known)


def segments(operations: Sequence[Operation]) -> list[Segment]:
    """The segments of operations, in the order of the report."""
    return in_order({(it.book, it.key) for it in operations})


def in_order(found: set[Segment]) -> list[Segment]:
    return sorted(found, key=lambda it: (book_rank(it[0]), it[1]))


def named_segments(past: Past, held: Set) -> list[Segment]:
    """The segments that are named: by themselves, or with an operation."""
    found = {it for it in segments(held.values()) if past.has(*it)}
    alone = {(book, key) for book, key in past.names if key is not None and "--chapter" not in past.flags}
    return in_order(found | alone)


def history(held: Set, book: str, key: Key) -> bytes:
    """All that is held of a segment, and what is awaited there, the greatest id first."""
    members = segment(held, book, key)
    ids = {it.id for it in members} | {id for it in members for id in it.replaced if id not in held}
    lines = b"history %s %d\n" % (write_ref(book, key).encode(), len(ids))
    for id in sorted(ids, reverse=True):
        by = [b"%d:%s" % (it.id.number, it.id.name.encode()) for it in sorted(members, key=lambda it: it.id) if id in it.replaced]
        lines += entry(held.get(id), id, by)
    return lines


def entry(operation: Optional[Operation], id: Id, by: list[bytes]) -> bytes:
    """What a history says of an id, by the ids of those that replace it."""
    front = b"%d %s" % (id.number, id.name.encode())
    if operation is None:
        return b" ".join([b"awaited", front, b"replaced", *by]) + b"\n"
    if operation.text is None:
        return b" ".join([b"op", front, b"thinned", *by]) + b"\n"
    fate = [b"replaced", *by] if by else [b"shown"]
    return b" ".join([b"op", front, b"%d" % len(operation.text), *fate]) + b"\n" + operation.text + b"\n"


def covered(data: bytes) -> Summary:
    """The ids of a project, a summary or a bundle, by how it begins."""
    if data.startswith(PROJECT_MAGIC):
        return summary_of(read_project(data)[1])
    if data.startswith(SUMMARY_MAGIC):
        return read_summary(data)
    return summary_of(read_whole_bundle(data))


def known_of(held: Set, known: Summary) -> Set:
    """The operations whose ids are known."""
    return {id: it for id, it in held.items() if is_covered(known, id)}


def changes(past: Past, held: Set, known: Summary) -> bytes:
    """What changed in the named segments, with what was shown and what is, if texts are asked for."""
    new = [it for it in held.values() if not is_covered(known, it.id)]
    lines = b""
    for book, key in segments(new):
        if past.has(book, key):
            makers = sorted({it.id.name for it in new if (it.book, it.key) == (book, key)})
            lines += " ".join(["changed", write_ref(book, key), *makers]).encode() + b"\n"
            if "--text" in past.flags:
                lines += texts(b"was", shown(known_of(held, known), book, key)) + texts(b"is", shown(held, book, key))
    return lines


def texts(word: bytes, operations: Sequence[Operation]) -> bytes:
    """Operations that are shown, the greatest first."""
    lines = b""
    for it in reversed(operations):
        front = b"%s %d %s " % (word, it.id.number, it.id.name.encode())
        lines += front + (b"thinned\n" if it.text is None else b"%d\n%s\n" % (len(it.text), it.text))
    return lines


def restored(replica: Replica, id: Id) -> bytes:
    """Gives the segment of an id its text again, unless it has it."""
    operation = replica.held.get(id)
    if operation is None:
        raise Fault(83, *id)
    if operation.text is None:
        raise Fault(84, *id)
    if text_of_segment(replica.held, operation.book, operation.key) == operation.text:
        return b""
    return replica.edit(operation.book, operation.key, operation.text)


def restored_since(past: Past, replica: Replica, known: Summary) -> bytes:
    """Gives the named segments what the known operations have there, and says how many edits each book got."""
    before = known_of(replica.held, known)
    wanted = []
    for book, key in named_segments(past, replica.held):
        showing = shown(before, book, key)
        if showing and showing[-1].text is None:
            raise Fault(84, *showing[-1].id)
        text = showing[-1].text if showing else b""
        if text != text_of_segment(replica.held, book, key):
            wanted.append((book, key, text))
    for book, key, text in wanted:
        replica.edit(book, key, text)
    books = list(dict.fromkeys(book for book, _, _ in wanted))
    return b"".join(b"restored %d %s\n" % (sum(it[0] == book for it in wanted), book.encode()) for book in books)
