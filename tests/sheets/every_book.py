"""What is reported of all books of a project is what is reported of each of them, one after another."""
import re
import subprocess
from pathlib import Path

from repository import TOP
from stage import Tally, begin, run, wanted

# Needles that real books have, and such that they do not.
NEEDLES = ["the", "a", "God", "é", "\n", "no such word", " and ", "\\v"]
# Books with something to find, beside the ones that have every marker: the second has no head.
SLIPS = {
    "GEN": "\\id GEN\n\\c 1\n\\p\n\\v 1 a \\nd b \\zz c\n\\v 3-2 and the \\f + \\ft d\n\\v 2 God\n\\b\n\\k e\\k*\n",
    "RUT": "\\id RUT\n\\c 1\n\\p\n\\v 1 the God of the\u00e9 a\n\\q1\n\\v 2 \\w the|lemma=\"x\"\\w*\n",
}


class Project:
    """A project in a folder, which has books."""

    def __init__(self, program: Path, folder: Path, books: list[Path]) -> None:
        self.program = program
        self.folder = folder
        begin(program, folder)
        for name, text in SLIPS.items():
            (folder / f"{name}.usfm").write_text(text)
        files = [*(str(it.resolve()) for it in books), *(f"{it}.usfm" for it in SLIPS)]
        wanted(run(program, folder, ["import", "p", *files]))
        # The books in their order, as they are written into a folder.
        (folder / "texts").mkdir()
        wrote = wanted(run(program, folder, ["export", "p", "--into", "texts"])).decode()
        self.books = re.findall(r"^wrote \S*?([0-9A-Z]{3})\.usfm$", wrote, re.M)

    def lines(self, *words: str) -> bytes:
        return wanted(run(self.program, self.folder, list(words)))

    def each(self, command: str, *words: str) -> list[bytes]:
        return [self.lines(command, "p", book, *words) for book in self.books]


def without_text(lines: bytes, fields: int) -> bytes:
    """The front of each line, which has so many fields: what is written without the lines of the text."""
    return b"".join(b" ".join(line.split(b" ", fields)[:fields]) + b"\n" for line in lines.splitlines())


def in_one_list(lists: list[bytes], books: list[str]) -> bytes:
    """The words of books with the books' codes after them, by their bytes, those of one word in the order of the books."""
    rows = []
    for place, (book, words) in enumerate(zip(books, lists)):
        for line in words.splitlines():
            form, keys = line.split(b" ", 1)
            rows.append((form, place, form + b" " + book.encode() + b" " + keys + b"\n"))
    return b"".join(row[2] for row in sorted(rows))


def check_every_book(tally: Tally, program: Path, folder: Path, books: list[Path]) -> None:
    """Of all books the same is reported as of each, by the program's own sheet as by the one that it was made of."""
    carried = subprocess.run([TOP / "samples/carry", "--check"], capture_output=True, text=True, check=False)
    tally.check(carried.returncode == 0, f"samples/carry --check: {carried.stderr}")
    sheet = str(TOP / "samples/usfm.sty")
    project = Project(program, folder, books)
    tally.check(len(project.books) == len(books) + len(SLIPS), f"not all books were imported: {project.books}")
    found = project.lines("check", "p")
    tally.check(found != b"", "nothing was found in books with slips")
    tally.check(found == b"".join(project.each("check")), "check: all books and each")
    tally.check(found == b"".join(project.each("check", sheet)), "check: the own sheet and the one that it was made of")
    tally.check(found == project.lines("check", "p", "--sheet", sheet), "check: the own sheet and --sheet")
    shown = project.lines("check", "p", "--text")
    tally.check(shown == b"".join(project.each("check", "--text")), "check --text: all books and each")
    tally.check(without_text(shown, 4) == found, "check --text: its front is check")
    for needle in NEEDLES:
        hits = project.lines("find", "p", needle)
        tally.check(hits == b"".join(project.each("find", needle)), f"find {needle!r}: all books and each")
        tally.check(hits == b"".join(project.each("find", sheet, needle)), f"find {needle!r}: the own sheet and the same")
        shown = project.lines("find", "p", needle, "--text")
        tally.check(shown == b"".join(project.each("find", needle, "--text")), f"find {needle!r} --text: all books and each")
        tally.check(without_text(shown, 3) == hits, f"find {needle!r} --text: its front is find")
        marked = b"[" + needle.encode() + b"]"
        all_marked = "\n" in needle or all(marked in line for line in shown.splitlines())
        tally.check(all_marked, f"find {needle!r} --text: a line lacks it")
    words = project.lines("words", "p")
    tally.check(words == in_one_list(project.each("words"), project.books), "words: all books and each")
    tally.check(words == in_one_list(project.each("words", sheet), project.books), "words: the own sheet and the same")
