"""Several commands at once on one project, and on one folder, on the program for Windows."""
import re
import subprocess
from concurrent.futures import ThreadPoolExecutor
from pathlib import Path

from both import run, tree
from reporting import Tally

WAITS = b"waiting for p, which another command is using\n"
WRITERS, EDITS = 3, 8
BOOK = b"\\id MAT\n\\c 1\n" + b"".join(b"\\v %d In\n" % it for it in range(1, WRITERS * EDITS + 1))


def check_together(tally: Tally, program: Path, work: Path) -> None:
    work.mkdir()
    work.joinpath("book").write_bytes(BOOK)
    for words in (["init", "p", "ana"], ["import", "p", "book"]):
        tally.check(run(program, work, words)[0] == 0, f"{words} before the writers")
    with ThreadPoolExecutor(WRITERS + 1) as pool:
        reader = pool.submit(read_all, tally, program, work)
        told = [line for lines in pool.map(lambda writer: write_all(tally, program, work, writer), range(WRITERS)) for line in lines]
        reader.result()
    numbers = sorted(int(number) for number in re.findall(rb"^made (\d+) ana$", b"".join(told), re.M))
    first = len(BOOK.splitlines()) + 1
    tally.check(numbers == list(range(first, first + WRITERS * EDITS)), f"the numbers of the writers' edits: {numbers}")
    book = run(program, work, ["export", "p", "MAT"])[1]
    tally.check(book == BOOK.replace(b" In", b" written"), f"the book after the writers: {book!r}")
    tally.check(sorted(tree(work)) == ["book", "p"], f"after the writers there is {sorted(tree(work))}")
    check_waiting(tally, program, work)
    check_folder(tally, program, work)


def write_all(tally: Tally, program: Path, work: Path, writer: int) -> list[bytes]:
    told = []
    for verse in range(writer + 1, WRITERS * EDITS + 1, WRITERS):
        answer = run(program, work, ["edit", "p", f"MAT 1:{verse}"], b"\\v %d written\n" % verse)
        tally.check(answer[0] == 0 and answer[2] in (b"", WAITS), f"an edit beside others: {answer}")
        told.append(answer[1])
    return told


def read_all(tally: Tally, program: Path, work: Path) -> None:
    for _ in range(EDITS):
        answer = run(program, work, ["export", "p", "MAT"])
        is_whole = answer[0] == 0 and len(answer[1].splitlines()) == len(BOOK.splitlines())
        tally.check(is_whole, f"an export beside the writers: {answer}")


def check_waiting(tally: Tally, program: Path, work: Path) -> None:
    """Of many that begin one project, one does."""
    with ThreadPoolExecutor(WRITERS) as pool:
        answers = list(pool.map(lambda name: run(program, work, ["init", "q", name]), ["ana", "ben", "cy"]))
    tally.check(sorted(it[0] for it in answers) == [0, 1, 1], f"three that begin one project: {answers}")


def check_folder(tally: Tally, program: Path, work: Path) -> None:
    """Two projects that are synced with one folder at once."""
    work.joinpath("texts").mkdir()
    for _ in range(3):
        commands = [subprocess.Popen([program, "sync", name, "texts"], cwd=work, stdout=subprocess.PIPE, stderr=subprocess.PIPE) for name in "pp"]
        ends = [(*command.communicate(timeout=100), command.returncode) for command in commands]
        tally.check(all(it[2] == 0 for it in ends), f"two syncs of one folder: {ends}")
    tally.check([it for it in sorted(tree(work / "texts/.usfm_team")) if not it.startswith("days")] == ["base", "base.1", "names"], "what two syncs leave beside the books")
