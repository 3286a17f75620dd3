"""What `read` writes: a book, a chapter or a segment as plain text, by a style sheet."""
import re
import unicodedata
from dataclasses import dataclass
from typing import Iterator, NamedTuple, Optional, Sequence

from .faults import Fault
from .looks import OWN_SHEET
from .operations import Set, export, has_book, pick, picked_keys, shown
from .references import Key, read_book, read_ref, verse_after
from .sheets import Sheet, read_sheet, words_of
from .trees import Kind, Node, tree_of

COMMANDS = ("read",)
HEADINGS = "mt mte ms mr s sr r d sp sd cl cd qa imt imte is iot".split()
POETRY = "q qr qc qd qm iq".split()
ITEMS = "li lim ili io".split()
ABOUT = "id usfm ide sts rem h toc toca".split()
BLANKS = re.compile(rb"[ \t\r\n]*")
SIGN = re.compile(rb"[ \t\r\n]*(?:[+-](?=[ \t\r\n]|\Z)[ \t\r\n]*)?")
# The bytes that stand for a conflict in the text, before they are written; no text has them, since they are not UTF-8.
CONFLICT = b"\xff"


@dataclass(frozen=True)
class Ask:
    """The words of a line."""

    project: str
    book: str
    key: Optional[Key]
    sheet: Optional[str]
    width: int


class Seen(NamedTuple):
    """A part of a text as it is seen: what it is, its bytes, and whether it stands in a note."""

    sort: str
    text: bytes
    in_note: bool


def ask_of(words: Sequence[str]) -> Optional[Ask]:
    """What a line asks for, if it has the shape of one."""
    given, options, rest = [], {}, iter(words[1:])
    for word in rest:
        if word in ("--sheet", "--width"):
            value = next(rest, None)
            if value is None or word in options:
                return None
            options[word] = value
        elif word.startswith("--"):
            return None
        else:
            given.append(word)
    if len(given) != 2:
        return None
    if len(given[1].encode()) == 3:
        book, key = read_book(given[1]), None
    else:
        book, key = read_ref(given[1])
    width = options.get("--width", "72")
    if not re.fullmatch(r"\+?0*[1-9][0-9]{0,3}", width):
        return None
    return Ask(given[0], book, key, options.get("--sheet"), int(width))


def written(ask: Ask, held: Set, data: Optional[bytes]) -> bytes:
    """The plain text of what is asked for."""
    sheet = read_sheet(OWN_SHEET.read_bytes() if data is None else data)
    if not has_book(held, ask.book):
        raise Fault(82)
    keys = [it for it in picked_keys(held, ask.book) if is_asked(ask.key, it)]
    texts = [pick(held, ask.book, it) for it in keys]
    starts, at = set(), 0
    for key, text in zip(keys, texts):
        if text and len({it.text for it in shown(held, ask.book, key)}) > 1:
            starts.add(at)
        at += len(text)
    return laid_out(marked(seen_in(b"".join(texts), sheet), starts), ask.width)


def is_asked(asked: Optional[Key], key: Key) -> bool:
    """Whether a segment is read: of a head that is asked for, each of its chapter is."""
    return asked is None or key == asked or asked.is_head and key.chapter == asked.chapter


# ---- what is seen


def seen_in(text: bytes, sheet: Sheet) -> list[Seen]:
    """What is seen of a text, in its order."""
    eye = Eye(sheet)
    eye.look(tree_of(text, sheet), False, b"", False)
    return eye.seen


class Eye:
    """Looks at a tree from its front; `lead` is what may stand after the last mark."""

    def __init__(self, sheet: Sheet) -> None:
        self.sheet = sheet
        self.seen: list[Seen] = []
        self.lead = ""

    def add(self, sort: str, text: bytes, in_note: bool) -> None:
        if text:
            self.seen.append(Seen(sort, text, in_note))

    def look(self, node: Node, in_note: bool, style: bytes, has_attributes: bool) -> None:
        """What is in a node."""
        for kid in node.kids:
            if kid.kind is Kind.TEXT:
                self.text(kid.token.slice, in_note, style, has_attributes and kid is node.kids[-1])
            elif kid.kind is Kind.LEAF:
                known = not kid.token.closing and self.sheet.style_of(kid.token.name) is not None
                self.add("mark" if known else "unknown", kid.token.slice, in_note)
                self.lead = lead_after(kid.token.name) if known else ""
            else:
                self.node(kid, in_note, style)

    def node(self, node: Node, outer_note: bool, outer_style: bytes) -> None:
        in_note = outer_note or node.kind is Kind.NOTE
        name = node.token.name
        style = {Kind.CHARACTER: name, Kind.MILESTONE: outer_style}.get(node.kind, b"")
        sort = {Kind.PARAGRAPH: "paragraph", Kind.NOTE: "caller"}.get(node.kind, "mark")
        self.add(sort, node.token.slice, in_note)
        self.lead = "sign" if node.kind is Kind.NOTE else lead_after(name)
        may = node.kind in (Kind.CHARACTER, Kind.MILESTONE) and node.close is not None
        self.look(node, in_note, style, may)
        if node.close is not None:
            self.add("mark", node.close.slice, in_note)
            self.lead = ""

    def text(self, text: bytes, in_note: bool, style: bytes, may_end: bool) -> None:
        number = verse_after(text) if self.lead in ("verse", "chapter") else None
        if number is not None:
            front, text = text[: number.length], text[number.length :]
            blanks = BLANKS.match(front).end()
            self.add("mark", front[:blanks], in_note)
            self.add(self.lead, front[blanks:], in_note)
        gap = {"": 0, "sign": SIGN.match(text).end()}.get(self.lead, BLANKS.match(text).end())
        self.add("mark", text[:gap], in_note)
        words, bar, attributes = text[gap:].partition(b"|") if may_end else (text[gap:], b"", b"")
        self.add("caption" if style == b"fig" else "words", words, in_note)
        self.add("mark", bar + attributes, in_note)
        self.lead = ""


def lead_after(name: bytes) -> str:
    """What may stand after a mark."""
    return {b"v": "verse", b"c": "chapter"}.get(name, "blanks")


def marked(seen: list[Seen], starts: set[int]) -> list[Seen]:
    """With a conflict after each part that begins at one of these places."""
    made, at = [], 0
    for part in seen:
        made.append(part)
        if at in starts:
            made.append(Seen("words", CONFLICT, part.in_note))
        at += len(part.text)
    return made


# ---- how it is laid out


def laid_out(seen: list[Seen], width: int) -> bytes:
    """The lines of what is seen, chapter by chapter."""
    lines: list[bytes] = []
    last = None
    for group, first, later, ink in paragraphs(seen):
        words = [word.replace(CONFLICT, b"[conflict]") for word in words_of(ink)]
        if not words:
            if group == "gap" and last is not None:
                last = "gap"
            continue
        if last not in (None, group):
            lines.append(b"")
        last = group
        lines += filled(words, width, first, later)
    return b"".join(line + b"\n" for line in lines)


def paragraphs(seen: list[Seen]) -> Iterator[tuple[str, int, int, bytes]]:
    """The paragraphs, the notes of each chapter after it: their groups, their indents, and their bytes."""
    starts = [at for at, part in enumerate(seen) if part.sort == "paragraph" and part.text == b"\\c" and not part.in_note]
    for begin, end in zip([0, *starts], [*starts, len(seen)]):
        yield from chapter(seen[begin:end])


def chapter(seen: list[Seen]) -> Iterator[tuple[str, int, int, bytes]]:
    """The paragraphs of a chapter."""
    made = [["text", 2, 0, b""]]
    notes: list[bytes] = []
    for at, part in enumerate(seen):
        if part.sort == "paragraph":
            has_number = part.text == b"\\c" and "chapter" in sorts_of_block(seen[at + 1 :])
            made.append([*(("chapter", 0, 0) if has_number else set_as(part.text[1:].decode())), b""])
        elif part.sort == "caller":
            notes.append(b" [%d] " % (len(notes) + 1))
            made[-1][3] += b"[%d]" % len(notes)
        elif part.sort != "mark":
            apart = b" " if part.sort in ("verse", "chapter", "caption") or part.text == CONFLICT else b""
            if part.in_note:
                notes[-1] += apart + part.text + apart
            else:
                made[-1][3] += apart + part.text + apart
            if part.sort == "chapter" and made[-1][0] == "chapter":
                made.append(["text", 2, 0, b""])
    yield from (tuple(it) for it in made)
    yield from (("notes", 0, 4, note) for note in notes)


def sorts_of_block(seen: list[Seen]) -> Iterator[str]:
    """What the parts are up to the next paragraph."""
    for part in seen:
        if part.sort == "paragraph":
            return
        yield part.sort


def set_as(name: str) -> tuple[str, int, int]:
    """The group and the indents of a paragraph, by its mark's name."""
    stem, level = (name[:-1], int(name[-1])) if name[-1:] in list("123456789") else (name, 1)
    if name == "b":
        return "gap", 0, 0
    if stem in HEADINGS:
        return "heading", 0, 0
    if stem in POETRY:
        return "text", 2 + 2 * level, 6 + 2 * level
    if stem in ITEMS:
        return "text", 2 * level, 2 + 2 * level
    if stem in ABOUT:
        return "about", 0, 2
    return "text", 2, 0


def filled(words: list[bytes], width: int, first: int, later: int) -> list[bytes]:
    """The lines of words."""
    lines = [b" " * first + words[0]]
    for word in words[1:]:
        longer = lines[-1] + b" " + word
        if columns(longer) <= width:
            lines[-1] = longer
        else:
            lines.append(b" " * later + word)
    return lines


def columns(line: bytes) -> int:
    """How many columns a line takes."""
    return sum(map(width_of, line.decode()))


def width_of(sign: str) -> int:
    """How many columns a character takes. The vowels and last consonants of Hangul stand in the square of the first one. One that is not
    assigned is narrow: Python calls those of the last planes wide."""
    if unicodedata.category(sign) in ("Mn", "Me", "Cf") or "\u1160" <= sign <= "\u11ff":
        return 0
    return 2 if unicodedata.east_asian_width(sign) in "WF" and unicodedata.category(sign) != "Cn" else 1
