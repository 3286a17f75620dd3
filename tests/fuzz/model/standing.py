"""How a project stands, and how far its chapters are written."""
import re
from functools import cache
from pathlib import Path
from typing import Iterable, Sequence

from .bundles import SUMMARY_MAGIC, Summary, is_covered, read_summary, read_whole_bundle, summary_of
from .faults import Fault
from .folders import books_of
from .operations import Set, awaited, has_book, keys_of, shown, text_of_segment
from .references import verse_after, write_ref
from .tokens import text_after, tokens_of

ENGLISH = Path(__file__).resolve().parents[3] / "samples/english.vrs"
# Something besides blanks.
INK = re.compile(rb"[^ \t\r\n]")


def status(name: str, held: Set, files: Sequence[tuple[str, bytes]]) -> bytes:
    """How a copy stands, and what the copies that files are of have and lack."""
    # The files are judged before anything is written.
    others = [(file, known_of(data, file)) for file, data in files]
    segments = [(book, key) for book in books_of(held) for key in keys_of(held, book)]
    showing = {it: shown(held, *it) for it in segments}
    makers = [it.id.name for ops in showing.values() for it in ops]
    verses = [it for it in segments if not it[1].is_head and is_written(text_of_segment(held, *it))]
    replaced = len(held) - len(makers)
    thinned = sum(it.text is None for it in held.values())
    lines = [f"copy {name}"]
    if held:
        lines.append(f"books {len(books_of(held))}" + (f", verses {len(verses)}" if verses else ""))
        lines.append("shown " + ", ".join(f"{it} {makers.count(it)}" for it in sorted(set(makers))))
    if replaced:
        lines.append(f"replaced {replaced}" + (f", of these {thinned} without their texts" if thinned else ""))
    lines += [f"conflict {write_ref(*it)}" for it in segments if len({op.text for op in showing[it]}) > 1]
    lines += [f"awaited {it.number} {it.name}" for it in awaited(held)]
    for file, known in others:
        common = sum(is_covered(known, it) for it in held)
        all_known = sum(last - first + 1 for ranges in known.values() for first, last in ranges)
        for word, count in (("lacks", len(held) - common), ("lacked", all_known - common)):
            lines += [f"{word} {file} {count}"] if count else []
    return "".join(it + "\n" for it in lines).encode()


def known_of(data: bytes, file: str) -> Summary:
    """The ids that a summary or a bundle tells. A refusal says which file it is of."""
    try:
        if data.startswith(SUMMARY_MAGIC):
            return read_summary(data)
        return summary_of(read_whole_bundle(data))
    except Fault as fault:
        fault.file = file
        raise


def is_written(text: bytes) -> bool:
    """Whether a verse's text has something besides its number, marks and blanks."""
    tokens = tokens_of(text)
    number = verse_after(text_after(tokens, 0)) if tokens else None
    plain = [it.slice for it in tokens if not it.is_mark]
    if number and plain:
        plain[0] = plain[0][number.length :]
    return any(INK.search(it) for it in plain)


@cache
def last_verses() -> dict[str, dict[int, int]]:
    """The last verses of the English Bible, by books and chapters."""
    lines = [it.split() for it in ENGLISH.read_text().splitlines() if it and not it.startswith("#")]
    return {book: {int(chapter): int(last) for chapter, last in (it.split(":") for it in chapters)} for book, *chapters in lines}


def progress(held: Set, books: Iterable[str]) -> bytes:
    """How many verses of each chapter are written, by the verses of the English Bible."""
    told = ""
    for book in books:
        if not has_book(held, book):
            raise Fault(82)
        standing: dict[int, set[int]] = {}
        written: dict[int, set[int]] = {}
        for key in keys_of(held, book):
            text = text_of_segment(held, book, key)
            if key.is_head or not text:
                continue
            mark = verse_after(text_after(tokens_of(text), 0))
            first = key.place.number
            last = mark.last.number if mark and mark.last else first
            numbers = set(range(first, max(first, last) + 1)) - {0}
            standing.setdefault(key.chapter, set()).update(numbers)
            if is_written(text):
                written.setdefault(key.chapter, set()).update(numbers)
        lasts = last_verses().get(book, {})
        for chapter in sorted({it for it in standing if standing[it]} | set(lasts)):
            last = lasts.get(chapter) or max(standing[chapter])
            told += f"{book} {chapter} {sum(1 <= it <= last for it in written.get(chapter, ()))} of {last}\n"
    return told.encode()
