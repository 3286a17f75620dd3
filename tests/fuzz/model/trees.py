"""The tree of a USFM text by a style sheet."""
from dataclasses import dataclass, field
from enum import Enum, auto
from typing import Iterator, Optional

from .sheets import CHARACTER, NOTE, PARAGRAPH, Record, Sheet
from .tokens import Token, tokens_of

DEEPEST = 64


class Kind(Enum):
    """What a part of a tree is."""

    ROOT = auto()
    TEXT = auto()
    PARAGRAPH = auto()
    CHARACTER = auto()
    NOTE = auto()
    MILESTONE = auto()
    LEAF = auto()


@dataclass
class Node:
    """A part of a tree: a text, a leaf of a mark, or a node with its mark, its kids and its closing mark."""

    kind: Kind
    token: Optional[Token] = None
    record: Optional[Record] = None
    close: Optional[Token] = None
    too_deep: bool = False
    parent: Optional["Node"] = None
    kids: list["Node"] = field(default_factory=list)

    def around(self) -> Iterator["Node"]:
        """The nodes around this one, the innermost first and the root last."""
        node = self.parent
        while node is not None:
            yield node
            node = node.parent

    def inside(self) -> Iterator["Node"]:
        """This node and all in it, in the order of the text."""
        todo = [self]
        while todo:
            node = todo.pop()
            yield node
            todo.extend(reversed(node.kids))

    def leaves(self) -> Iterator[bytes]:
        """The slices of the tokens in it, in order."""
        if self.token is not None:
            yield self.token.slice
        for kid in self.kids:
            yield from kid.leaves()
        if self.close is not None:
            yield self.close.slice


def tree_of(text: bytes, sheet: Sheet) -> Node:
    """The root of the tree of a text."""
    return Reader(text, sheet).read()


class Reader:
    """Reads token by token, with the nodes that are open at its place: the root, and the innermost last."""

    def __init__(self, text: bytes, sheet: Sheet) -> None:
        self.tokens = tokens_of(text)
        self.sheet = sheet
        self.next = 0
        self.open = [Node(Kind.ROOT)]

    def read(self) -> Node:
        while self.next < len(self.tokens):
            token = self.tokens[self.next]
            self.next += 1
            if not token.is_mark:
                self.add(Node(Kind.TEXT, token))
            elif token.closing:
                self.read_closing(token)
            else:
                self.read_opening(token)
        return self.open[0]

    def add(self, node: Node) -> Node:
        """Makes something a kid of the innermost open node."""
        node.parent = self.open[-1]
        node.parent.kids.append(node)
        return node

    def read_opening(self, mark: Token) -> None:
        record = self.sheet.style_of(mark.name)
        if record is None or is_leaf(mark, record):
            self.add(Node(Kind.LEAF, mark, record))
        elif record.kind == PARAGRAPH:
            del self.open[1:]
            self.begin(Node(Kind.PARAGRAPH, mark, record))
        elif record.kind == NOTE:
            self.end_note()
            self.begin(Node(Kind.NOTE, mark, record))
        elif record.kind == CHARACTER:
            if not mark.nested:
                self.end_characters()
            self.begin(Node(Kind.CHARACTER, mark, record))
        else:
            self.read_milestone(Node(Kind.MILESTONE, mark, record))

    def is_too_deep(self) -> bool:
        """Whether a node begun here would be too deep. What is in the root has depth 1."""
        return len(self.open) > DEEPEST

    def add_too_deep(self, node: Node) -> None:
        self.add(Node(Kind.LEAF, node.token, node.record, too_deep=True))

    def begin(self, node: Node) -> None:
        if self.is_too_deep():
            self.add_too_deep(node)
        else:
            self.open.append(self.add(node))

    def end_note(self) -> None:
        """Ends the open note, with all inside it."""
        for place, node in enumerate(self.open):
            if node.kind is Kind.NOTE:
                del self.open[place:]
                return

    def end_characters(self) -> None:
        """Ends the characters down to the note, the paragraph or the root that they are in."""
        while self.open[-1].kind is Kind.CHARACTER:
            self.open.pop()

    def read_milestone(self, node: Node) -> None:
        """A milestone takes the next text and what ends it, if both follow, or what ends it alone."""
        if self.is_too_deep():
            self.add_too_deep(node)
            return
        self.add(node)
        text, end = (self.tokens[self.next : self.next + 2] + [None, None])[:2]
        if text is not None and text.slice == b"\\*":
            node.close = text
            self.next += 1
        elif text is not None and not text.is_mark and end is not None and end.slice == b"\\*":
            node.kids.append(Node(Kind.TEXT, text, parent=node))
            node.close = end
            self.next += 2

    def read_closing(self, mark: Token) -> None:
        for node in self.in_reach():
            if mark.name != b"" and node.record.closer == mark.name and node.token.nested == mark.nested:
                node.close = mark
                while self.open.pop() is not node:
                    pass
                return
        self.add(Node(Kind.LEAF, mark))

    def in_reach(self) -> list[Node]:
        """The nodes that a closing mark may close: the characters down to the innermost note, and the note."""
        reach = []
        for node in reversed(self.open):
            if node.kind in (Kind.CHARACTER, Kind.NOTE):
                reach.append(node)
            if node.kind is not Kind.CHARACTER:
                break
        return reach


def is_leaf(mark: Token, record: Record) -> bool:
    """Whether a mark with this record begins no node, and is no milestone."""
    if record.kind is None:
        return True
    if record.kind == CHARACTER:
        return record.closer == b""
    return mark.nested
