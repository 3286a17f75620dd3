"""Style sheets."""
from dataclasses import dataclass
from typing import Optional

from .faults import Fault, text_of
from .references import BLANKS

PARAGRAPH, CHARACTER, NOTE, MILESTONE = b"paragraph", b"character", b"note", b"milestone"

FIELDS = (b"marker", b"endmarker", b"name", b"occursunder", b"styletype", b"texttype")

MARK_OF_ORDER = b"\xef\xbb\xbf"


@dataclass
class Record:
    """What a sheet says of one marker."""

    marker: bytes
    name: bytes = b""
    closer: bytes = b""
    under: tuple[bytes, ...] = ()
    kind: Optional[bytes] = None
    verse_text: bool = False


class Sheet:
    """The records of a style sheet, in the order in which their markers first come."""

    def __init__(self, records: dict[bytes, Record]) -> None:
        self.records = records

    def style_of(self, name: bytes) -> Optional[Record]:
        """The record of a mark's name, or else the first milestone that this name closes."""
        if name in self.records:
            return self.records[name]
        if name == b"":
            return None
        for record in self.records.values():
            if record.kind == MILESTONE and record.closer == name:
                return record
        return None


def read_sheet(data: bytes) -> Sheet:
    """The sheet that a file is, or the fault of its first wrong line."""
    text = text_of(data).removeprefix(MARK_OF_ORDER)
    records: dict[bytes, Record] = {}
    record: Optional[Record] = None
    for number, line in enumerate(text.split(b"\n"), start=1):
        field = field_of(line)
        if field is None:
            continue
        name, value = field
        if name == b"marker":
            if value == b"":
                raise Fault(41, number)
            record = Record(words_of(value)[0])
            # A second record takes the place of the first in a dict.
            records[record.marker] = record
        elif record is None:
            raise Fault(40, number)
        else:
            set_field(record, name, value, number)
    return Sheet(records)


def field_of(line: bytes) -> Optional[tuple[bytes, bytes]]:
    """The field of a line that is read, with its name in small letters, and its value."""
    line = line.lstrip(BLANKS)
    if line.startswith(b"#!"):
        line = line[2:].lstrip(BLANKS)
    line = without_comment(line)
    if not line.startswith(b"\\"):
        return None
    end = min([place for place, byte in enumerate(line) if byte in BLANKS], default=len(line))
    # bytes.lower changes ASCII letters alone.
    name = line[1:end].lower()
    return (name, line[end:].strip(BLANKS)) if name in FIELDS else None


def without_comment(line: bytes) -> bytes:
    """A line up to the first # that is at its start or after a blank."""
    for place, byte in enumerate(line):
        if byte == ord("#") and (place == 0 or line[place - 1] in BLANKS):
            return line[:place]
    return line


def words_of(value: bytes) -> list[bytes]:
    """The words that blanks divide. bytes.split would take other blanks too."""
    for blank in b"\t\r\n":
        value = value.replace(bytes([blank]), b" ")
    return [word for word in value.split(b" ") if word]


def set_field(record: Record, name: bytes, value: bytes, number: int) -> None:
    """Gives a record the value of a field in the line of this number."""
    if name == b"endmarker":
        record.closer = value.removesuffix(b"*")
    elif name == b"name":
        record.name = value
    elif name == b"occursunder":
        record.under = tuple(words_of(value))
    elif name == b"texttype":
        record.verse_text = value.lower() == b"versetext"
    else:
        if value.lower() not in (PARAGRAPH, CHARACTER, NOTE, MILESTONE):
            raise Fault(42, number)
        record.kind = value.lower()
