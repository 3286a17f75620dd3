"""Answers to conflicts, as files that travel."""
import re
from typing import NamedTuple, Optional, Sequence

from .faults import Fault
from .operations import shown
from .references import Id, Key, read_id, read_ref, write_ref
from .replicas import Replica

FIRST_LINE = b"USFM answers 1\n"


class Given(NamedTuple):
    """An answer: a segment, the ids that stood there, the id whose text was taken or a text of one's own, and a remark."""

    book: str
    key: Key
    ids: tuple[Id, ...]
    taken: Optional[Id] = None
    own: Optional[bytes] = None
    remark: Optional[bytes] = None


def read_answers(data: bytes) -> list[Given]:
    """The answers that a file spells. It is refused with the first line that is none."""
    if not data.startswith(FIRST_LINE):
        raise Fault(85, 1)
    answers = []
    place = len(FIRST_LINE)
    while place < len(data):
        given, after = answer_at(data, place)
        if given is None:
            raise Fault(85, data.count(b"\n", 0, place) + 1)
        answers.append(given)
        place = after
    return answers


def answer_at(data: bytes, place: int) -> tuple[Optional[Given], int]:
    """The answer that begins here, if one does, and where it ends."""
    conflict = re.compile(rb"conflict (\S+ \S+)((?: \S+){2,})\n").match(data, place)
    try:
        book, key = read_ref(conflict[1].decode())
        ids = tuple(read_id(it.decode()) for it in conflict[2].split())
    except (TypeError, UnicodeDecodeError, Fault):
        return None, place
    if len(set(ids)) < len(ids):
        return None, place
    place = conflict.end()
    take = re.compile(rb"take (\S+)\n").match(data, place)
    taken = next((it for it in ids if take and take[1] == b"%d:%s" % (it.number, it.name.encode())), None)
    own = None
    if taken is not None:
        place = take.end()
    else:
        own, place = counted(b"text", data, place)
    remark, place = counted(b"remark", data, place)
    return Given(book, key, ids, taken, own, remark), place


def counted(word: bytes, data: bytes, place: int) -> tuple[Optional[bytes], int]:
    """The text after a line with its length, if one is here, and where its line feed ends."""
    line = re.compile(word + rb" (0|[1-9][0-9]*)\n").match(data, place)
    if not line:
        return None, place
    end = line.end() + int(line[1])
    text = data[line.end() : end]
    try:
        text.decode()
    except UnicodeDecodeError:
        return None, place
    return (text, end + 1) if data[end : end + 1] == b"\n" else (None, place)


def write_answers(answers: Sequence[Given]) -> bytes:
    """The file of some answers."""
    return FIRST_LINE + b"".join(map(write_answer, answers))


def write_answer(given: Given) -> bytes:
    """The lines of an answer."""
    words = ["conflict", write_ref(given.book, given.key), *map(spelled, given.ids)]
    lines = " ".join(words).encode() + b"\n"
    if given.taken is not None:
        lines += b"take %s\n" % spelled(given.taken).encode()
    for word, text in ((b"text", given.own), (b"remark", given.remark)):
        lines += b"" if text is None else b"%s %d\n%s\n" % (word, len(text), text)
    return lines


def spelled(id: Id) -> str:
    """An id as a line has it."""
    return f"{id.number}:{id.name}"


def settle(replica: Replica, answers: Sequence[Given]) -> bytes:
    """Makes an edit of each answer over the ids of its line, and tells of all."""
    told, settled, left = b"", 0, 0
    for given in answers:
        reference = write_ref(given.book, given.key).encode()
        is_chosen = given.taken is not None or given.own is not None
        is_made = is_chosen and make(replica, given)
        settled += is_made
        left += is_chosen and not is_made
        told += b"left %s\n" % reference if is_chosen and not is_made else b""
        told += b"" if given.remark is None else b"remark %s %d\n%s\n" % (reference, len(given.remark), given.remark)
    return told + b"settled %d\nleft %d\n" % (settled, left)


def make(replica: Replica, given: Given) -> bool:
    """Makes the edit of an answer, if its ids are shown there and its text fits."""
    try:
        if given.taken is None:
            replica.edit_over(given.book, given.key, given.own, given.ids)
        else:
            replica.edit_with(given.book, given.key, given.taken, given.ids)
        return True
    except Fault as fault:
        if fault.number in (80, 82, 83):
            return False
        raise
