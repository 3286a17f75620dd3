"""Where a needle occurs in a book's text of Scripture, and the words of that text."""
import unicodedata
from typing import Iterator, NamedTuple

from .faults import Fault
from .references import Key, verse_after
from .sheets import Sheet
from .tokens import cut, key_of_place, tokens_of
from .trees import Kind, Node, tree_of

# Letters of Unicode's Alphabetic that are symbols by their category: circled and squared ones.
SYMBOLS = (range(0x24B6, 0x24EA), range(0x1F130, 0x1F14A), range(0x1F150, 0x1F16A), range(0x1F170, 0x1F18A))
LETTERS = ("Lu", "Ll", "Lt", "Lm", "Lo", "Nl")
COMBINING = ("Mn", "Mc", "Me")


class Hit(NamedTuple):
    """Where the needle is."""

    key: Key
    start: int


def find(text: bytes, sheet: Sheet, needle: bytes) -> list[Hit]:
    """The occurrences of a needle in the plain leaves, from the left and without overlap."""
    if needle == b"":
        raise Fault(100)
    pieces = cut(text)
    hits = []
    for start, leaf in plain_leaves(text, sheet):
        place = leaf.find(needle)
        while place >= 0:
            hits.append(Hit(key_of_place(pieces, start + place), start + place))
            place = leaf.find(needle, place + len(needle))
    return hits


def words(text: bytes, sheet: Sheet) -> list[tuple[bytes, list[Key]]]:
    """The composed forms of all words, rising by bytes, each with its keys, rising."""
    pieces = cut(text)
    keys_of: dict[bytes, set[Key]] = {}
    for start, leaf in plain_leaves(text, sheet):
        for place, word in runs(leaf.decode()):
            form = unicodedata.normalize("NFC", word).encode()
            keys_of.setdefault(form, set()).add(key_of_place(pieces, start + place))
    return [(form, sorted(keys)) for form, keys in sorted(keys_of.items())]


def runs(leaf: str) -> Iterator[tuple[int, str]]:
    """The longest runs of word characters in a leaf, each with the byte at which it starts."""
    word = ""
    place = 0
    for character in leaf + " ":
        if is_of_word(character):
            word += character
        elif word:
            yield place - len(word.encode()), word
            word = ""
        place += len(character.encode())


def is_of_word(character: str) -> bool:
    """Whether a character is alphabetic or a combining one."""
    is_symbol = any(ord(character) in it for it in SYMBOLS)
    return is_symbol or unicodedata.category(character) in LETTERS + COMBINING


def plain_leaves(text: bytes, sheet: Sheet) -> Iterator[tuple[int, bytes]]:
    """The parts of a book that are text of Scripture, each with the byte at which it starts."""
    after_verse = texts_after_verse_marks(text)
    for node in tree_of(text, sheet).inside():
        if node.kind is not Kind.TEXT or not is_scripture(node):
            continue
        start, leaf = node.token.start, node.token.slice
        if start in after_verse:
            verse = verse_after(leaf)
            length = verse.length if verse else 0
            start, leaf = start + length, leaf[length:]
        if has_attributes(node):
            leaf = leaf.split(b"|")[0]
        yield start, leaf


def texts_after_verse_marks(text: bytes) -> set[int]:
    r"""The starts of the texts that come directly after a mark \v."""
    tokens = tokens_of(text)
    pairs = zip(tokens, tokens[1:])
    return {after.start for mark, after in pairs if mark.slice == b"\\v" and not after.is_mark}


def is_scripture(node: Node) -> bool:
    """Whether a text is in a paragraph of the text of verses, outside notes and milestones."""
    around = list(node.around())
    if any(it.kind in (Kind.NOTE, Kind.MILESTONE) for it in around):
        return False
    return any(it.kind is Kind.PARAGRAPH and it.record.verse_text for it in around)


def has_attributes(node: Node) -> bool:
    """Whether a text may end with attributes: it is the last in a character that has its closing mark."""
    parent = node.parent
    return parent.kind is Kind.CHARACTER and parent.close is not None and parent.kids[-1] is node
