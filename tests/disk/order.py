"""The order of the program's system calls, as strace shows it."""
import re
import shutil
import subprocess
from pathlib import Path

from rows.vectors import BENS, EMPTY, FIRST
from stage import SECONDS, Tally

CALLS = "open,openat,flock,write,fsync,link,linkat,rename,renameat,renameat2,unlink,unlinkat,close"
BOOK = b"\\id MAT\n\\c 1\n\\v 1 At\n"
# A project of ana with the first bundle.
HELD = EMPTY[:-16] + FIRST
# Each command that changes a project, with its standard input, and the project before it.
CHANGES = [
    (["import", "p", "book"], b"", HELD),
    (["edit", "p", "MAT 1:1"], b"\\v 1 As\n", HELD),
    (["edit-over", "p", "MAT 1:1", "2:ana"], b"\\v 1 As\n", HELD),
    (["receive", "p", "bundle"], b"", EMPTY),
    (["thin", "p"], b"", None),
]
READS = [["shown", "p", "MAT 1:1"], ["send", "p"], ["export", "p", "MAT"], ["summary", "p"], ["report", "p"]]


def written(name: str) -> str:
    return rf"write\(\d+<.*/{re.escape(name)}>"


def synced(name: str) -> str:
    return rf"fsync\(\d+<.*/{re.escape(name)}>\) += 0"


def renamed(old: str, new: str) -> str:
    return rf'rename\w*\(.*"{re.escape(old)}", .*"{re.escape(new)}".*\) += 0'


ANSWERED = r"write\(1<"
# How a project is replaced, in the folder `order`.
REPLACED = [written("p.new"), synced("p.new"), renamed("p.new", "p"), synced("order")]
def moved(old: str, new: str) -> str:
    """Of a file whose folder is reached by a handle."""
    return rf'rename\w*\(.*/{re.escape(old)}", .*/{re.escape(new)}".*\) += 0'


def removed(name: str) -> str:
    return rf'unlink\w*\(.*/{re.escape(name)}".*\) += 0'


def put(name: str) -> list[str]:
    """How a file of the program's own folder is put in the place of the one that is there."""
    return [written(f"{name}.made"), synced(f"{name}.made"), moved(f"{name}.made", name)]


# What is written for a book's new file, before anything else changes.
STAGED = [written("MAT.new"), synced("MAT.new"), synced(".usfm_team")]
# How it is put in its place, and what it was written from becomes the base.
PLACED = [moved("MAT.new", "MAT.usfm"), synced("texts")]
# How a day is kept for the first time.
DAY = [
    synced(".usfm_team"), written("day.made"), synced("day.made"), r'rename\w*\(.*/day\.made", .*/\d{4}-\d\d-\d\d".*\) += 0',
    synced("days"),
]
SETTLED = [*put("base"), synced(".usfm_team"), removed("next"), synced(".usfm_team"), ANSWERED]
SYNC = ["sync", "p", "texts"]
# A sync that writes a file, and one that brings its book something.
SYNCS = [
    (SYNC, [synced("texts"), *STAGED, *put("base"), *put("names"), *put("next"), synced(".usfm_team"), *PLACED, *put("base.1"), *SETTLED]),
    ([*SYNC, "bens"], [*STAGED, *put("next"), synced(".usfm_team"), *DAY, *REPLACED, *PLACED, *put("base.1"), *SETTLED]),
]


def check_order(tally: Tally, program: Path, work: Path) -> None:
    if shutil.which("strace") is None:
        print("disk: not run, since strace is not installed: the order of the calls to the system")
        return
    folder = work / "order"
    folder.mkdir()
    folder.joinpath("book").write_bytes(BOOK)
    folder.joinpath("bundle").write_bytes(FIRST)
    for words, given, project in CHANGES:
        folder.joinpath("p").write_bytes(with_a_replaced_text(program, folder) if project is None else project)
        lines = traced(program, folder, words, given)
        tally.check(is_changed_in_order(lines), f"{' '.join(words)}: {lines}")
    for words in READS:
        lines = traced(program, folder, words, b"")
        is_untouched = not any(line.startswith(("flock", "fsync", "rename")) for line in lines)
        tally.check(is_untouched, f"{' '.join(words)}: {lines}")
    lines = traced(program, folder, ["init", "begun", "ana"], b"")
    begun = [r'openat\(.*"begun.begun", .*O_EXCL', written("begun.begun"), synced("begun.begun")]
    named = [r'link\w*\(.*"begun.begun", .*"begun".*\) += 0', r'unlink\w*\(.*"begun.begun".*\) += 0', synced("order")]
    tally.check(in_order(lines, [*begun, *named]), f"init: {lines}")
    folder.joinpath("texts").mkdir()
    folder.joinpath("p").write_bytes(HELD)
    folder.joinpath("bens").write_bytes(BENS)
    for words, wanted in SYNCS:
        lines = traced(program, folder, words, b"")
        tally.check(are_these(lines, wanted), f"{' '.join(words)}: {lines}")
    lines = traced(program, folder, SYNC, b"")
    is_untouched = not any(re.match("write|fsync|rename|link|unlink", line) for line in lines)
    tally.check(is_untouched, f"a sync that has nothing to do: {lines}")


def with_a_replaced_text(program: Path, folder: Path) -> bytes:
    """A project in which one text replaced another, so that there is something to thin."""
    folder.joinpath("p").write_bytes(HELD)
    folder.joinpath("bens").write_bytes(BENS)
    subprocess.run([program, "receive", "p", "bens"], cwd=folder, check=True, capture_output=True)
    return folder.joinpath("p").read_bytes()


def traced(program: Path, folder: Path, words: list[str], given: bytes) -> list[str]:
    """The calls of a command, a line each, with the path of each handle."""
    told = folder.parent / "calls"
    command = ["strace", "-f", "-y", "-e", f"trace={CALLS}", "-o", told, program, *words]
    subprocess.run(command, cwd=folder, input=given, capture_output=True, timeout=SECONDS, check=True)
    # Each line begins with the number of the process.
    return [line.split(None, 1)[1] for line in told.read_text().splitlines()]


def is_changed_in_order(lines: list[str]) -> bool:
    """Whether the project was locked, and what was written to PROJECT.new was synced, renamed, and its folder synced,
    before others could go on and a byte of the answer was written."""
    locks = [place for place, line in enumerate(lines) if re.match(r"flock\(\d+<[^>]*/p>, LOCK_EX\|LOCK_NB\) += 0", line)]
    if len(locks) != 1:
        return False
    return in_order(lines[locks[0] :], [*REPLACED, r"close\(\d+<[^>]*/p>\)", ANSWERED])


def in_order(lines: list[str], wanted: list[str]) -> bool:
    """Whether each of the patterns fits a line after those of the ones before it, and none fits one too early: what is
    written last is written after all of them."""
    at = -1
    for pattern in wanted:
        fits = [place for place, line in enumerate(lines) if re.match(pattern, line)]
        if not fits or fits[0] <= at:
            return False
        at = fits[-1]
    return True


def are_these(lines: list[str], wanted: list[str]) -> bool:
    """Whether the lines that any of the patterns fits are as many as the patterns, and each is fitted by its own."""
    found = [line for line in lines if any(re.match(pattern, line) for pattern in wanted)]
    return len(found) == len(wanted) and all(re.match(pattern, line) for pattern, line in zip(wanted, found))
