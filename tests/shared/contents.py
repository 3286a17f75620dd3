r"""What rows say about files: texts, bundles, project files and summaries in words.

    "\id MAT\n\c 1\n" "a"*4000
        These bytes, the second text 4000 times. \n, \\, \" and \xff (in hexadecimal) are one byte
        each; before any other letter a backslash is itself.
    bundle 1:ana MAT 0 "\id MAT\n" 2:ana MAT 1:1 over 1:ben "\v 1 In\n" 3:cy MAT 1:2 thinned
    bundle first 3:ben MAT 1:1 "\v 1 At\n"
    sealed first
    project ana first
        A bundle of operations, a sealed one, and the project file of ana that holds some. A name stands for
        operations, or for a text, that the page `named` gives it.
    summary ana 1-3 5 ben 3
        The numbers that are held under each name.

The second implementation of the rules (tests/fuzz/model) makes and reads the bytes.
"""
import re
from pathlib import Path

from model import bundles
from model.faults import Fault
from model.operations import Operation, Set, join
from model.references import read_id, read_ref, write_ref

TOKEN = re.compile(r'"(?:[^"\\]|\\.)*"(?:\*\d+)?|[^\s"]+')
ESCAPE = re.compile(rb'\\(n|\\|"|x[0-9a-f]{2})')


class Named:
    """Operations and texts with names, and the contents that are said by them."""

    def __init__(self, page: Path) -> None:
        self.sets: dict[str, Set] = {}
        self.texts: dict[str, bytes] = {}
        for name, said in re.findall(r"^    (\w+): (.*(?:\n     .*)*)", page.read_text(), re.M):
            if said.startswith('"'):
                self.texts[name] = self.content(said)
            else:
                self.sets[name] = self.set_of(TOKEN.findall(said))

    def content(self, said: str) -> bytes:
        """The bytes that these words say."""
        kind, *words = TOKEN.findall(said)
        if kind == "bundle":
            return bundles.write_bundle(self.set_of(words))
        if kind == "sealed":
            return bundles.seal(bundles.write_bundle(self.set_of(words)))
        if kind == "project":
            return bundles.write_project(words[0], self.set_of(words[1:]))
        if kind == "summary":
            return bundles.write_summary(summary_of(words))
        return b"".join(self.texts[it] if it in self.texts else text_of(it) for it in [kind, *words])

    def set_of(self, words: list[str]) -> Set:
        """The operations that these words say."""
        held: Set = {}
        while words:
            if words[0] in self.sets:
                more, words = self.sets[words[0]], words[1:]
            else:
                operation, words = read_operation(words)
                more = {operation.id: operation}
            held = join(held, more)
        return held


def read_operation(words: list[str]) -> tuple[Operation, list[str]]:
    """The operation that the words begin with, and the words after it."""
    try:
        id, (book, key) = read_id(words[0]), read_ref(" ".join(words[1:3]))
    except Fault:
        raise ValueError(f"neither an operation nor a name: {' '.join(words[:3])}") from None
    words = words[3:]
    replaced = []
    if words[0] == "over":
        words = words[1:]
        while not words[0].startswith('"') and words[0] != "thinned":
            replaced.append(read_id(words[0]))
            words = words[1:]
    text, words = (None, words[1:]) if words[0] == "thinned" else (b"", words)
    while text is not None and words and words[0].startswith('"'):
        text, words = text + text_of(words[0]), words[1:]
    return Operation(id, book, key, tuple(replaced), text), words


def text_of(word: str) -> bytes:
    """The bytes of a text between quotes."""
    if not word.startswith('"'):
        raise ValueError(f"neither a name nor a text between quotes: {word}")
    text, times = word[1:].rsplit('"', 1)
    return ESCAPE.sub(lambda found: escaped(found[1]), text.encode()) * int(times[1:] or 1)


def escaped(said: bytes) -> bytes:
    """The byte that an escape stands for."""
    return bytes([int(said[1:], 16)]) if said[0:1] == b"x" else b"\n" if said == b"n" else said


def summary_of(words: list[str]) -> bundles.Summary:
    """The ranges of each name."""
    summary: bundles.Summary = {}
    for word in words:
        if word[0].isdigit():
            first, _, last = word.partition("-")
            summary[name].append((int(first), int(last or first)))
        else:
            name = word
            summary[name] = []
    return summary


def told(data: bytes) -> list[str]:
    """What the bytes are, in the words of rows: a line for each operation, or for each of a text."""
    try:
        name, held = bundles.read_project(data)
        return [f"project {name}", *map(told_operation, held.values())]
    except Fault:
        pass
    try:
        bare = bundles.unsealed(data)
        kind = "bundle" if bare == data else "sealed"
        return [kind, *map(told_operation, bundles.read_whole_bundle(bare).values())]
    except Fault:
        pass
    try:
        summary = bundles.read_summary(data).items()
        return ["summary", *(f"{name} {told_ranges(ranges)}" for name, ranges in summary)]
    except Fault:
        return [quoted(line) for line in data.splitlines(keepends=True)]


def told_operation(it: Operation) -> str:
    """An operation in the words of rows."""
    ids = " ".join(f"{id.number}:{id.name}" for id in it.replaced)
    text = "thinned" if it.text is None else quoted(it.text)
    at = f"{it.id.number}:{it.id.name} {write_ref(it.book, it.key)}"
    return f"{at} over {ids} {text}" if ids else f"{at} {text}"


def told_ranges(ranges: list[tuple[int, int]]) -> str:
    return " ".join(f"{first}-{last}" for first, last in ranges)


def quoted(data: bytes) -> str:
    """A text between quotes."""
    text = data.decode(errors="backslashreplace").replace('"', '\\"').replace("\n", "\\n")
    return '"' + re.sub(r"[\0-\x1f]", lambda found: f"\\x{ord(found[0]):02x}", text) + '"'
