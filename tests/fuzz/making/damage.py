"""Bundles, summaries and projects that were truncated, changed or forged."""
from random import Random
from typing import Sequence

from model.bundles import BUNDLE_MAGIC, THINNED_MAGIC, write_body, write_id, write_key, write_name, write_number
from model.operations import Operation
from model.references import GREATEST_NUMBER

# The fields of an operation, each with what it is.
Fields = list[tuple[str, bytes]]

WRONG_NAMES = [b"Ana", b"a b", b"an\xc3\xa4", b"a\x00", b"_", b"{", b"a:"]
WRONG_BOOKS = [b"mat", b"MA ", b"M\xc3\xa9", b"M-T", b"\x00\x00\x00", b"MA["]


def fields_of(operation: Operation) -> Fields:
    """The fields of an operation, as they are in a bundle."""
    body = write_body(operation.text)
    key = write_key(operation.key)
    fields = id_fields(write_id(operation.id), "id")
    fields += [("book", operation.book.encode())]
    fields += [("chapter", key[:2]), ("kind", key[2:3]), ("verse", key[3:5]), ("letter", key[5:])]
    fields += [("count", write_number(len(operation.replaced), 8))]
    for named in operation.replaced:
        fields += id_fields(write_id(named), "named")
    fields += [("tag", body[:1])]
    return fields if operation.text is None else fields + [("length", body[1:9]), ("text", body[9:])]


def id_fields(id: bytes, kind: str) -> Fields:
    """The fields of an id."""
    return [(f"{kind} number", id[:8]), (f"{kind} length", id[8:9]), (f"{kind} name", id[9:])]


def wrong_field(rng: Random, kind: str, data: bytes) -> bytes:
    """Something else for a field, mostly wrong."""
    if kind.endswith("name"):
        return rng.choice(WRONG_NAMES + [data.upper(), data[:-1] + b"A"])
    if kind == "book":
        return rng.choice(WRONG_BOOKS)
    if kind == "text":
        return data[:-1] + rng.choice([b"\xff", b"\xc3", b"\\c 999", b"\\v 998 x"])
    return write_number(wrong_number(rng, kind, int.from_bytes(data, "big")) % 256 ** len(data), len(data))


def wrong_number(rng: Random, kind: str, number: int) -> int:
    """Another number for a field that is one."""
    choices = {
        "id number": [0, GREATEST_NUMBER + 1, -1],
        "id length": [0, 33, 255, number + 1, number - 1],
        "named number": [0, GREATEST_NUMBER, GREATEST_NUMBER + 1, number + 1, number - 1],
        "named length": [0, 33, 255, number + 1],
        "chapter": [1000, 65535, number + 1],
        "kind": [2, 255, 1 - number],
        "verse": [1000, 65535, number + 1],
        "letter": [1, ord("A"), ord("a") - 1, ord("z") + 1, 255, ord("a")],
        "count": [number + 1, number - 1, 2**63, 1],
        "tag": [1 - number, 2, 255],
        "length": [number + 1, number - 1, -1, 2**63, 0],
    }
    return rng.choice(choices[kind])


def joined(operations: Sequence[Fields], count: int, magic: bytes) -> bytes:
    """The bytes of a bundle of these operations, which says that it has this many."""
    data = b"".join(data for fields in operations for _, data in fields)
    return magic + write_number(count, 8) + data


def wrong_bundle(rng: Random, operations: Sequence[Operation]) -> bytes:
    """A bundle of operations in which a field, an order, a count or the format is changed."""
    fields = [fields_of(it) for it in operations]
    count = len(fields)
    magics = [BUNDLE_MAGIC, THINNED_MAGIC]
    magic = magics[any(it.text is None for it in operations)]
    change = rng.randrange(14)
    if change == 0 and count > 1:
        place = rng.randrange(count - 1)
        fields[place : place + 2] = fields[place : place + 2][::-1]
    elif change == 1 and count:
        fields.insert(0, rng.choice(fields))
        count += 1
    elif change == 2:
        count = rng.choice([0, max(count - 1, 0), count + 1, 2**64 - 1])
    elif change in (3, 8):
        swap_named(rng, fields)
    elif change == 4:
        return changed_magic(rng, joined(fields, count, magic))
    elif change == 5:
        name_own_number(rng, fields)
    elif change == 6:
        magic = rng.choice(magics)
        leave_text_out(rng, fields)
    elif change == 7:
        magic = rng.choice(magics)
    elif count:
        operation = rng.choice(fields)
        # By kinds, else most changes would be of the ids that an operation names.
        last = operation[-1][0]
        kind = rng.choice(sorted({kind for kind, _ in operation}) + ["tag", last, last])
        place = rng.choice([place for place, it in enumerate(operation) if it[0] == kind])
        operation[place] = (kind, wrong_field(rng, kind, operation[place][1]))
        if kind == "text":
            operation[place - 1] = ("length", write_number(len(operation[place][1]), 8))
    return joined(fields, count, magic)


def leave_text_out(rng: Random, fields: Sequence[Fields]) -> None:
    """Leaves the text of an operation out, whether or not another one names it."""
    full = [it for it in fields if it[-1][0] == "text"]
    if full:
        rng.choice(full)[-3:] = [("tag", b"\0")]


def name_own_number(rng: Random, fields: Sequence[Fields]) -> None:
    """Gives the last named id of an operation the number of the operation."""
    some = [it for it in fields if any(kind == "named number" for kind, _ in it)]
    if some:
        operation = rng.choice(some)
        last = max(place for place, (kind, _) in enumerate(operation) if kind == "named number")
        operation[last] = ("named number", operation[0][1])


def changed_magic(rng: Random, data: bytes) -> bytes:
    """The bytes of a bundle whose first ones are changed, or are those of another file."""
    place = rng.randrange(len(BUNDLE_MAGIC))
    changed = data[:place] + bytes([data[place] ^ 1 << rng.randrange(8)]) + data[place + 1 :]
    others = [b"USFMSS1\n" + data[8:], b"USFMPJ1\n\x03ana" + data, b"\xef\xbb\xbf" + data]
    return rng.choice([changed, changed, data[: rng.randrange(8)], data[:place] + b"\n", *others])


def swap_named(rng: Random, fields: Sequence[Fields]) -> None:
    """Exchanges two named ids of an operation that has several."""
    several = [it for it in fields if sum(kind == "named number" for kind, _ in it) > 1]
    if several:
        operation = rng.choice(several)
        first = [kind for kind, _ in operation].index("named number")
        operation[first : first + 6] = operation[first + 3 : first + 6] + operation[first : first + 3]


def damaged(rng: Random, data: bytes) -> bytes:
    """Bytes of which some were cut, changed, put in or put after."""
    place = rng.randint(0, len(data))
    change = rng.randrange(6)
    if change == 0 or not data:
        return data + rng.choice([b"\0", b"\n", data, BUNDLE_MAGIC])
    if change == 1:
        return data[:place]
    if change == 2:
        return data[:place] + bytes([rng.randrange(256)]) + data[place:]
    if change == 3:
        return data[:place] + data[place + rng.randint(1, 8) :]
    if change == 4:
        return data[:8][: rng.randint(0, 8)]
    place = min(place, len(data) - 1)
    return data[:place] + bytes([data[place] ^ 1 << rng.randrange(8)]) + data[place + 1 :]


def wrong_summary(rng: Random, name: bytes) -> bytes:
    """A summary of a few ranges, of which some do not rise or touch."""
    ends = [rng.choice([1, 2, 3, 4, 5, 6]) for _ in range(4)]
    if rng.random() < 0.3:
        ends[rng.randrange(4)] = rng.choice([0, GREATEST_NUMBER, GREATEST_NUMBER + 1, 2**64 - 1])
    if rng.random() < 0.7:
        ends.sort()
    names = sorted({name.decode(), rng.choice(["a", "zed", "-", "a" * 32])}, reverse=rng.random() < 0.3)
    data = b"USFMSS1\n" + write_number(len(names), 8)
    for each in names:
        count = rng.choice([0, 1, 1, 2, 2, 2, 2])
        data += write_name(each) + write_number(count, 8)
        data += b"".join(write_number(it, 8) for it in ends[: 2 * count])
    return data
