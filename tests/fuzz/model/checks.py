"""What a check finds in a book."""
from typing import NamedTuple, Optional

from .references import Key, Verse
from .sheets import Sheet
from .tokens import Token, cut, key_of_place, keys_of_marks, openers, text_after, tokens_of, verse_at
from .trees import Kind, Node, tree_of

# Findings at one place are in this order.
CODES = (
    "unknown-marker",
    "stray-close",
    "unclosed-char",
    "unclosed-note",
    "too-deep",
    "bad-number",
    "bad-bridge",
    "not-rising",
    "overlap",
    "not-under",
)


class Finding(NamedTuple):
    """A finding: its code, the byte at which it starts, and the key of the piece that holds it."""

    code: str
    start: int
    key: Key


def check(text: bytes, sheet: Sheet) -> list[Finding]:
    """All findings of a book, by their starts and then by their codes."""
    found = marks_of_tree(text, sheet) + marks_of_tokens(text)
    found.sort(key=lambda it: (it[1].start, CODES.index(it[0])))
    pieces = cut(text)
    return [Finding(code, mark.start, key_of_place(pieces, mark.start)) for code, mark in found]


def marks_of_tree(text: bytes, sheet: Sheet) -> list[tuple[str, Token]]:
    """The codes that the tree decides, with their marks."""
    found = []
    for node in tree_of(text, sheet).inside():
        is_mark = node.token is not None and node.token.is_mark
        if is_mark and not node.token.closing and sheet.style_of(node.token.name) is None:
            found.append(("unknown-marker", node.token))
        if node.kind is Kind.LEAF and node.token.closing:
            found.append(("stray-close", node.token))
        if node.kind is Kind.CHARACTER and node.close is None and not is_in_note(node):
            found.append(("unclosed-char", node.token))
        if node.kind is Kind.NOTE and node.close is None:
            found.append(("unclosed-note", node.token))
        if node.too_deep:
            found.append(("too-deep", node.token))
        if node.kind in (Kind.CHARACTER, Kind.NOTE) and not is_allowed(node):
            found.append(("not-under", node.token))
    return found


def is_in_note(node: Node) -> bool:
    """Whether a note is around a node."""
    return any(around.kind is Kind.NOTE for around in node.around())


def is_allowed(node: Node) -> bool:
    """Whether the words of OccursUnder, if there are any, allow a character or a note where it is."""
    words = node.record.under
    if not words:
        return True
    if node.kind is Kind.NOTE:
        return nearest(node, (Kind.PARAGRAPH,)) in words
    if node.parent.kind is Kind.CHARACTER:
        return node.parent.token.name in words or b"NEST" in words
    return nearest(node, (Kind.PARAGRAPH, Kind.NOTE)) in words


def nearest(node: Node, kinds: tuple[Kind, ...]) -> Optional[bytes]:
    """The name of the nearest node of these kinds around a node."""
    for around in node.around():
        if around.kind in kinds:
            return around.token.name
    return None


def marks_of_tokens(text: bytes) -> list[tuple[str, Token]]:
    """The codes that numbers and the cut decide, with their marks."""
    tokens = tokens_of(text)
    keys = keys_of_marks(tokens)
    opening = openers(tokens)
    found = []
    for index, mark in enumerate(tokens):
        if (mark.is_opening(b"c") or mark.is_opening(b"v")) and keys[index] is None:
            found.append(("bad-number", mark))
        if has_bad_bridge(tokens, index):
            found.append(("bad-bridge", mark))
        if keys[index] is not None and index not in opening:
            found.append(("not-rising", mark))
        before = [it for it in opening if it < index]
        if index in opening and any(overlaps(tokens, keys, it, index) for it in before):
            found.append(("overlap", mark))
    return found


def has_bad_bridge(tokens: list[Token], index: int) -> bool:
    """Whether a verse's number is followed by a hyphen without a bridge, or its bridge does not rise."""
    verse = verse_at(tokens, index)
    if verse is None:
        return False
    if verse.last is not None:
        return not verse.last > verse.first
    return text_after(tokens, index)[verse.length :].startswith(b"-")


def overlaps(tokens: list[Token], keys: list[Optional[Key]], earlier: int, later: int) -> bool:
    """Whether the bridge of an earlier verse reaches a later verse of its chapter. Both marks open pieces."""
    bridge, verse = verse_at(tokens, earlier), verse_at(tokens, later)
    if bridge is None or bridge.last is None or verse is None or keys[earlier].chapter != keys[later].chapter:
        return False
    return reaches(bridge.last, verse.first)


def reaches(last: Verse, verse: Verse) -> bool:
    """Whether a bridge to this last verse holds a verse; a verse without letter has all its letters in it."""
    if verse.number != last.number:
        return verse.number < last.number
    return verse.letter == "" or last.letter == "" or not verse.letter > last.letter
