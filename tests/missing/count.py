"""What is missing of a book by a versification, and how far it is, counted anew: by sets of verses and of their parts, and without
the program."""
import re
from dataclasses import dataclass

MARK = re.compile(r"\\\+?[A-Za-z0-9_-]*\*?")
END = r"(?![0-9A-Za-z])"
CHAPTER = re.compile(rf"[ \t\r\n]+([0-9]{{1,3}}){END}")
VERSE = re.compile(rf"[ \t\r\n]+([0-9]{{1,3}})([a-z]?){END}(?:-([0-9]{{1,3}})([a-z]?){END})?")
LETTERS = "abcdefghijklmnopqrstuvwxyz"
NUMBERS = range(1, 1000)


@dataclass(frozen=True)
class Verses:
    """A versification: of each book the last verse of each chapter, and the verses that are left out."""

    last: dict[str, list[int]]
    left_out: frozenset[tuple[str, int, int]]

    def of(self, book: str, chapter: int) -> set[int]:
        """The verses that a chapter is to have."""
        lasts = self.last.get(book, [])
        last = lasts[chapter - 1] if 1 <= chapter <= len(lasts) else 0
        return {it for it in range(1, last + 1) if (book, chapter, it) not in self.left_out}


def read_verses(text: str) -> Verses:
    """The versification of a file in the form of Paratext's .vrs files."""
    last: dict[str, list[int]] = {}
    left_out: set[tuple[str, int, int]] = set()
    for line in text.splitlines():
        words = line.split()
        if not words or words[0][0] in "#*" or "=" in words:
            continue
        pairs = [tuple(map(int, it.split(":"))) for it in words[1:]]
        if words[0][0] == "-":
            left_out.add((words[0][1:], *pairs[0]))
        else:
            last[words[0]] = [verse for _, verse in pairs]
    return Verses(last, frozenset(left_out))


@dataclass(frozen=True)
class Segment:
    """A piece of a book: its chapter, and of a verse its number with letter, the parts of verses that it has, and whether it has
    words."""

    chapter: int
    key: tuple[int, str] | None
    parts: frozenset[tuple[int, str]]
    is_bridge: bool
    has_words: bool

    @property
    def name(self) -> str:
        """How a line names it: by its chapter, and of a verse by its number with letter."""
        return f"{self.chapter}" if self.key is None else f"{self.chapter}:{self.key[0]}{self.key[1]}"


def parts_of(first: int, letter: str, last: int, last_letter: str) -> frozenset[tuple[int, str]]:
    """The parts of verses from the first to the last; a verse without a letter has all of them."""
    if first == last:
        return frozenset((first, it) for it in letter or LETTERS)
    front = {(first, it) for it in LETTERS if not letter or it >= letter}
    back = {(last, it) for it in LETTERS if not last_letter or it <= last_letter}
    return frozenset(front | back | {(verse, it) for verse in range(first + 1, last) for it in LETTERS})


def segments_of(text: str) -> list[Segment]:
    """The segments of a book: a mark \\c or \\v begins one if its key is above those of all marks before it."""
    starts: list[tuple[int, int, tuple[int, str] | None, re.Match[str] | None]] = [(0, 0, None, None)]
    chapter, greatest = 0, (0, -1, "")
    for mark in MARK.finditer(text):
        if mark[0] == "\\c" and (found := CHAPTER.match(text, mark.end())):
            number = int(found[1])
            chapter = max(chapter, number)
            key, begun = (number, -1, ""), (mark.start(), number, None, None)
        elif mark[0] == "\\v" and (found := VERSE.match(text, mark.end())):
            key = (chapter, int(found[1]), found[2])
            begun = (mark.start(), chapter, (int(found[1]), found[2]), found)
        else:
            continue
        if key > greatest:
            greatest = key
            starts.append(begun)
    ends = [start for start, *_ in starts[1:]] + [len(text)]
    segments = []
    for (_, number, key, found), end in zip(starts, ends):
        if key is None or found is None:
            segments.append(Segment(number, None, frozenset(), False, True))
            continue
        verse, letter = key
        is_bridge = found[3] is not None and int(found[3]) > verse
        last, last_letter = (int(found[3]), found[4]) if is_bridge else (verse, letter)
        words = MARK.sub("", text[found.end() : end]).strip(" \t\r\n")
        segments.append(Segment(number, key, parts_of(verse, letter, last, last_letter), is_bridge, words != ""))
    return segments


def runs(word: str, book: str, chapter: int, verses: set[int]) -> list[str]:
    """A line for each of the longest runs of verses."""
    lines = []
    for first in sorted(it for it in verses if it - 1 not in verses):
        last = first
        while last + 1 in verses:
            last += 1
        lines.append(f"{word} {book} {chapter}:{first}" + (f"-{last}" if last > first else ""))
    return lines


def missing(verses: Verses, book: str, text: str, only: int | None = None) -> list[str]:
    """The lines that say what of a book is missing, or of one chapter of it."""
    if not text:
        return []
    segments = segments_of(text)
    chapters = {it.chapter for it in segments} | set(range(1, len(verses.last.get(book, [])) + 1))
    lines = []
    for chapter in sorted(chapters if only is None else chapters & {only}):
        own = [it for it in segments if it.chapter == chapter]
        wanted = verses.of(book, chapter)
        there = {verse for it in own for verse, _ in it.parts if verse in NUMBERS}
        twice = {
            verse
            for at, bridge in enumerate(own)
            if bridge.is_bridge
            for later in own[at + 1 :]
            for verse, _ in bridge.parts & later.parts
            if verse in NUMBERS
        }
        if not own:
            lines += [f"missing {book} {chapter}"] if wanted else []
        else:
            lines += runs("missing", book, chapter, wanted - there)
        beyond = there - wanted if book in verses.last else set()
        lines += [f"beyond {book} {it.name}" for it in own if any(verse in beyond for verse, _ in it.parts)]
        lines += [f"twice {book} {chapter}:{verse}" for verse in sorted(twice)]
        lines += [f"empty {book} {it.name}" for it in own if it.key is not None and not it.has_words]
    return lines


def progress(verses: Verses, book: str, text: str) -> list[str]:
    """The lines that say how far the chapters of a book are."""
    segments = [it for it in segments_of(text) if it.key is not None]
    lasts = verses.last.get(book, [])
    known = {chapter for chapter, last in enumerate(lasts, 1) if last > 0}
    lines = []
    for chapter in sorted({it.chapter for it in segments} | known):
        own = [it for it in segments if it.chapter == chapter]
        numbers = {verse for it in own for verse, _ in it.parts if verse in NUMBERS}
        wanted = verses.of(book, chapter) if chapter in known else set(range(1, max(numbers, default=0) + 1))
        written = {verse for it in own if it.has_words for verse, _ in it.parts}
        if chapter in known or wanted:
            lines.append(f"{book} {chapter} {len(wanted & written)} of {len(wanted)}")
    return lines
