"""Bundles, sealed or not, summaries and project files as bytes."""
import hashlib
from typing import Optional

from .faults import Fault
from .operations import Operation, Set, replaced_in
from .references import GREATEST_NUMBER, HEAD, Id, Key, Verse, is_name, read_book
from .tokens import fits

BUNDLE_MAGIC = b"USFMSR1\n"
THINNED_MAGIC = b"USFMSR2\n"
SUMMARY_MAGIC = b"USFMSS1\n"
PROJECT_MAGIC = b"USFMPJ1\n"
SEAL_MAGIC = b"USFMSB1\n"
# How many bytes a seal has: the magic, the length and the digest.
SEAL_BYTES = 48

GREATEST_PLACE = 999


class Source:
    """Bytes that are read field by field. A field that is cut is fault 61."""

    def __init__(self, data: bytes) -> None:
        self.data = data
        self.at = 0

    def take(self, length: int) -> bytes:
        if self.at + length > len(self.data):
            raise Fault(61)
        self.at += length
        return self.data[self.at - length : self.at]

    def number(self, length: int) -> int:
        return int.from_bytes(self.take(length), "big")

    @property
    def is_at_end(self) -> bool:
        return self.at == len(self.data)


def judge(holds: bool, number: int, *details: object) -> None:
    """Refuses with this fault unless a rule holds."""
    if not holds:
        raise Fault(number, *details)


def read_magic(source: Source) -> bool:
    """Whether texts may be left out of the bundle that begins so.

    A magic that is cut is a cut bundle, and one that is neither of the two is none.
    """
    found = source.data[source.at : source.at + len(BUNDLE_MAGIC)]
    judge(BUNDLE_MAGIC.startswith(found) or THINNED_MAGIC.startswith(found), 60)
    return source.take(len(BUNDLE_MAGIC)) == THINNED_MAGIC


def read_bundle(source: Source) -> Set:
    """The operations of the bundle that comes next."""
    may_thin = read_magic(source)
    count = source.number(8)
    held: Set = {}
    before: Optional[Id] = None
    for place in range(1, count + 1):
        operation = read_operation(source, place, before, may_thin)
        held[operation.id] = operation
        before = operation.id
    if may_thin:
        judge_thinned(held)
    return held


def judge_thinned(held: Set) -> None:
    """Refuses operations of which none is thinned, and the first thinned one that none of its segment names."""
    judge(any(it.text is None for it in held.values()), 69, 0)
    replaced = replaced_in(held)
    for place, (id, operation) in enumerate(held.items(), start=1):
        judge(operation.text is not None or id in replaced, 69, place)


def read_whole_bundle(data: bytes) -> Set:
    """The operations of a bundle that nothing follows."""
    source = Source(data)
    held = read_bundle(source)
    judge(source.is_at_end, 70)
    return held


def seal(bundle: bytes) -> bytes:
    """A bundle, sealed."""
    return SEAL_MAGIC + len(bundle).to_bytes(8, "big") + hashlib.sha256(bundle).digest() + bundle


def take_sealed(data: bytes) -> tuple[bytes, bytes]:
    """The bundle that the front of the bytes seals, and what follows it; 72 where it was damaged, or is not whole."""
    length, rest = int.from_bytes(data[8:16], "big"), data[SEAL_BYTES:]
    judge(len(data) >= SEAL_BYTES and length <= len(rest), 72)
    judge(hashlib.sha256(rest[:length]).digest() == data[16:SEAL_BYTES], 72)
    return rest[:length], rest[length:]


def unsealed(data: bytes) -> bytes:
    """The bytes without their seal, where they have one."""
    if not data.startswith(SEAL_MAGIC):
        return data
    bundle, more = take_sealed(data)
    judge(not more, 72)
    return bundle


def unsealed_stream(data: bytes) -> bytes:
    """The bytes of bundles one after another without their seals, as far as they are bundles."""
    bare = b""
    while data:
        if data.startswith(SEAL_MAGIC):
            bundle, data = take_sealed(data)
        else:
            source = Source(data)
            try:
                read_bundle(source)
            except Fault:
                source.at = len(data)
            bundle, data = data[: source.at], data[source.at :]
        bare += bundle
    return bare


def read_operation(source: Source, place: int, before: Optional[Id], may_thin: bool) -> Operation:
    """The operation that comes next, which is at this place and after this id."""
    id = read_id(source, 63, place)
    judge(before is None or id > before, 62, place)
    book = read_book_code(source, place)
    key = read_key(source, place)
    replaced = read_replaced(source, id, place)
    text = read_body(source, book, key, place, may_thin)
    return Operation(id, book, key, replaced, text)


def read_id(source: Source, fault: int, place: int) -> Id:
    """An id; each fault of it is this one."""
    number = source.number(8)
    judge(1 <= number <= GREATEST_NUMBER, fault, place)
    length = source.number(1)
    judge(1 <= length <= 32, fault, place)
    name = source.take(length)
    judge(is_name(name), fault, place)
    return Id(number, name.decode())


def read_book_code(source: Source, place: int) -> str:
    """A book's code."""
    code = source.take(3)
    try:
        return read_book(code.decode("ascii"))
    except (Fault, UnicodeDecodeError):
        raise Fault(64, place) from None


def read_key(source: Source, place: int) -> Key:
    """A key. A head has zeros for the verse and its letter."""
    chapter = source.number(2)
    judge(chapter <= GREATEST_PLACE, 64, place)
    kind = source.number(1)
    judge(kind <= 1, 64, place)
    verse = source.number(2)
    judge(verse <= (GREATEST_PLACE if kind == 1 else 0), 64, place)
    letter = source.number(1)
    judge(letter == 0 or (kind == 1 and ord("a") <= letter <= ord("z")), 64, place)
    return Key(chapter, Verse(verse, chr(letter) if letter else "") if kind == 1 else HEAD)


def read_replaced(source: Source, id: Id, place: int) -> tuple[Id, ...]:
    """The ids that the operation of this id names: rising, and each with a smaller number."""
    count = source.number(8)
    replaced: list[Id] = []
    for _ in range(count):
        named = read_id(source, 65, place)
        judge(not replaced or named > replaced[-1], 65, place)
        judge(named.number < id.number, 65, place)
        replaced.append(named)
    return tuple(replaced)


def read_body(source: Source, book: str, key: Key, place: int, may_thin: bool) -> Optional[bytes]:
    """The text of an operation, after its tag, or none where the tag says that it was left out."""
    tag = source.number(1)
    judge(tag == 1 or (tag == 0 and may_thin), 66, place)
    if tag == 0:
        return None
    text = source.take(source.number(8))
    try:
        text.decode("utf-8")
    except UnicodeDecodeError:
        raise Fault(67, place) from None
    judge(fits(book, key, text), 68, place)
    return text


def write_number(number: int, length: int) -> bytes:
    """An unsigned number, the greatest byte first."""
    return number.to_bytes(length, "big")


def write_name(name: str) -> bytes:
    """A name after its length."""
    return write_number(len(name), 1) + name.encode()


def write_id(id: Id) -> bytes:
    """An id."""
    return write_number(id.number, 8) + write_name(id.name)


def write_key(key: Key) -> bytes:
    """A key of four fields."""
    verse, letter = (0, "") if key.is_head else key.place
    kind = 0 if key.is_head else 1
    place = write_number(kind, 1) + write_number(verse, 2) + (letter.encode() or b"\0")
    return write_number(key.chapter, 2) + place


def write_body(text: Optional[bytes]) -> bytes:
    """The tag and the text of an operation, or the tag of one whose text was left out."""
    if text is None:
        return write_number(0, 1)
    return write_number(1, 1) + write_number(len(text), 8) + text


def write_operation(operation: Operation) -> bytes:
    """An operation."""
    return (
        write_id(operation.id)
        + operation.book.encode()
        + write_key(operation.key)
        + write_number(len(operation.replaced), 8)
        + b"".join(write_id(it) for it in operation.replaced)
        + write_body(operation.text)
    )


def write_bundle(held: Set) -> bytes:
    """The bundle of a set, by rising id."""
    magic = THINNED_MAGIC if any(it.text is None for it in held.values()) else BUNDLE_MAGIC
    operations = b"".join(write_operation(held[id]) for id in sorted(held))
    return magic + write_number(len(held), 8) + operations


# For each name the ranges of held numbers, each with its first and its last number.
Summary = dict[str, list[tuple[int, int]]]


def summary_of(held: Set) -> Summary:
    """The longest ranges of the numbers that are held under each name."""
    summary: Summary = {}
    for name in sorted({id.name for id in held}):
        numbers = {id.number for id in held if id.name == name}
        firsts = sorted(it for it in numbers if it - 1 not in numbers)
        lasts = sorted(it for it in numbers if it + 1 not in numbers)
        summary[name] = list(zip(firsts, lasts))
    return summary


def write_summary(summary: Summary) -> bytes:
    """The bytes of a summary."""
    told = SUMMARY_MAGIC + write_number(len(summary), 8)
    for name in sorted(summary):
        told += write_name(name) + write_number(len(summary[name]), 8)
        for first, last in summary[name]:
            told += write_number(first, 8) + write_number(last, 8)
    return told


def read_summary(data: bytes) -> Summary:
    """The summary that bytes are, whose every fault is one."""
    try:
        return read_summary_fields(Source(data))
    except Fault:
        raise Fault(71) from None


def read_summary_fields(source: Source) -> Summary:
    """The names and ranges of a summary."""
    judge(source.take(len(SUMMARY_MAGIC)) == SUMMARY_MAGIC, 71)
    summary: Summary = {}
    before = ""
    for _ in range(source.number(8)):
        name = source.take(source.number(1))
        judge(is_name(name) and name.decode() > before, 71)
        before = name.decode()
        summary[before] = read_ranges(source)
    judge(source.is_at_end, 71)
    return summary


def read_ranges(source: Source) -> list[tuple[int, int]]:
    """The ranges of a name: at least one, rising, with a number between each two."""
    ranges: list[tuple[int, int]] = []
    count = source.number(8)
    judge(count >= 1, 71)
    for _ in range(count):
        first, last = source.number(8), source.number(8)
        judge(1 <= first <= last <= GREATEST_NUMBER, 71)
        judge(not ranges or first > ranges[-1][1] + 1, 71)
        ranges.append((first, last))
    return ranges


def is_covered(summary: Summary, id: Id) -> bool:
    """Whether an id lies in the ranges of a summary."""
    return any(first <= id.number <= last for first, last in summary.get(id.name, []))


def outside(held: Set, summary: Summary) -> Set:
    """What the delta for a summary holds: the operations whose ids it does not have.

    With a thinned one go all operations of its segment, since one of them names it.
    """
    lacking = {id: it for id, it in held.items() if not is_covered(summary, id)}
    whole = {(it.book, it.key) for it in lacking.values() if it.text is None}
    return {id: it for id, it in held.items() if id in lacking or (it.book, it.key) in whole}


def write_project(name: str, held: Set) -> bytes:
    """The project file of a replica."""
    return PROJECT_MAGIC + write_name(name) + write_bundle(held)


def read_project(data: bytes) -> tuple[str, Set]:
    """The name of the replica that a project file is, and what it holds."""
    source = Source(data)
    try:
        judge(source.take(len(PROJECT_MAGIC)) == PROJECT_MAGIC, 110)
        name = source.take(source.number(1))
        judge(is_name(name), 110)
    except Fault:
        raise Fault(110) from None
    return name.decode(), read_whole_bundle(data[source.at :])
