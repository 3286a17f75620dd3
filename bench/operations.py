"""What the generators of the benches have in common: verses, and operations and bundles as bytes."""
import struct

NAMES = [b"ana", b"ben", b"cy", b"dan-2"]
WORDS = "in the beginning was word and light shines darkness people who walked have seen great on those living land".split()


def text_of(rng, verse):
    words = (rng.choice(WORDS) for _ in range(rng.randint(8, 40)))
    return ("\\v %d %s\n" % (verse, " ".join(words))).encode()


def identity(op_id):
    number, name = op_id
    return struct.pack(">QB", number, len(name)) + name


def operation(op_id, book, chapter, verse, replaced, text, letter=0):
    place = struct.pack(">BHB", 0 if verse is None else 1, verse or 0, letter)
    named = b"".join(identity(r) for r in sorted(replaced))
    return (identity(op_id) + book.encode() + struct.pack(">H", chapter) + place + struct.pack(">Q", len(replaced))
            + named + struct.pack(">BQ", 1, len(text)) + text)


def bundle(operations):
    return b"USFMSR1\n" + struct.pack(">Q", len(operations)) + b"".join(bytes_of for _, bytes_of in operations)
