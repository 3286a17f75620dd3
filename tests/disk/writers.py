"""Writers and readers of one project at once."""
import random
import re
import threading
import time
from dataclasses import dataclass
from pathlib import Path

from books import Book
from stage import Answer, Tally, begin, run, wanted

WRITERS, EDITS, READERS = 4, 50, 2
# What an edit says on standard error: nothing, or that it waits.
SAID = {b"", *(b"waiting for %s, which another command is using\n" % name for name in (b"p", b"linked"))}


@dataclass(frozen=True)
class Edit:
    """An edit of a verse, by its place in the book's list, and when its command began and was answered."""

    verse: int
    text: bytes
    began: float
    ended: float
    answer: Answer

    @property
    def number(self) -> int:
        """The number of its id, 0 where it was refused."""
        words = self.answer.output.split()
        is_made = self.answer.status == 0 and len(words) == 3 and words[0] == b"made" and words[2] == b"ana"
        return int(words[1]) if is_made else 0


@dataclass(frozen=True)
class Export:
    """The book as it was exported, and when."""

    began: float
    ended: float
    answer: Answer


def check_writers(tally: Tally, program: Path, work: Path, book: Book) -> None:
    folder = work / "writers"
    begin(program, folder, book.content)
    tally.check(wanted(run(program, folder, ["export", "p", book.code])) == book.content, "the book before")
    # One of the writers names the project by a link.
    folder.joinpath("linked").symlink_to("p")
    edits, exports_of_readers = played(program, folder, book)
    exports = [export for of_one in exports_of_readers for export in of_one]
    numbers = sorted(edit.number for edit in edits)
    first = numbers[0]
    for edit in edits:
        tally.check(edit.number > 0 and edit.answer.error in SAID, f"an edit: {edit.answer}")
    waits = sum(bool(edit.answer.error) for edit in edits)
    tally.check(waits > 0, "no edit said that it waits")
    tally.check(numbers == list(range(first, first + WRITERS * EDITS)), f"the ids that were answered: {numbers}")
    last = run(program, folder, ["export", "p", book.code])
    moment = time.monotonic()
    for export in [*exports, Export(moment, moment, last)]:
        tally.check(is_of_a_moment(book, edits, export), f"an export of {len(export.answer.output)} bytes, {export.answer.error!r}")
    for edit in edits:
        tally.check(edit.text in last.output, f"a text that was lost: {edit.text!r}")
    tally.check(all(exports_of_readers), f"each reader exported: {[len(of_one) for of_one in exports_of_readers]} times")
    tally.check(not folder.joinpath("p.new").exists(), "PROJECT.new is gone")
    report = run(program, folder, ["report", "p"])
    tally.check(report == Answer(0, b"", b""), f"a report of edits one after another: {report}")
    print(f"disk: {len(edits)} edits by {WRITERS} writers beside {len(exports)} exports by {READERS} readers")


def played(program: Path, folder: Path, book: Book) -> tuple[list[Edit], list[list[Export]]]:
    """Has the writers edit verses, each verse once, while the readers export the book. The exports are apart for each reader."""
    places = random.Random(1).sample(range(len(book.verses)), WRITERS * EDITS)
    edits: list[Edit] = []
    exports: list[list[Export]] = [[] for _ in range(READERS)]
    is_over = threading.Event()

    def write(writer: int) -> None:
        for verse in places[writer::WRITERS]:
            text = b"\\v %d writer %d, %s\n" % (book.verses[verse].number, writer, book.verses[verse].place.encode())
            words = ["edit", "linked" if writer == 0 else "p", book.verses[verse].place]
            began = time.monotonic()
            answer = run(program, folder, words, text)
            edits.append(Edit(verse, text, began, time.monotonic(), answer))

    def read(reader: int) -> None:
        while not is_over.is_set():
            began = time.monotonic()
            answer = run(program, folder, ["export", "p", book.code])
            exports[reader].append(Export(began, time.monotonic(), answer))

    writers = [threading.Thread(target=write, args=(writer,)) for writer in range(WRITERS)]
    readers = [threading.Thread(target=read, args=(reader,)) for reader in range(READERS)]
    for thread in writers + readers:
        thread.start()
    for thread in writers:
        thread.join()
    is_over.set()
    for thread in readers:
        thread.join()
    return edits, exports


def is_of_a_moment(book: Book, edits: list[Edit], export: Export) -> bool:
    """Whether an export is the book after some edit, by their numbers, and after all that were answered before it began."""
    if export.answer.status != 0 or export.answer.error:
        return False
    found = set(re.findall(rb"\\v \d+ writer [^\n]*\n", export.answer.output))
    seen = [edit.number for edit in edits if edit.text in found]
    last = max(seen, default=0)
    before = max((edit.number for edit in edits if edit.ended < export.began), default=0)
    is_not_begun = any(edit.began > export.ended for edit in edits if edit.number <= last)
    texts = {edit.verse: edit.text for edit in edits if edit.number <= last}
    return before <= last and not is_not_begun and book.with_texts(texts) == export.answer.output
