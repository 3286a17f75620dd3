"""Commands on a folder that are killed at a system call, or of which a system call or an allocation fails: when repeated, such a
command makes what an undisturbed one makes."""
import concurrent.futures
import errno
import os
import re
import shutil
import signal
import tempfile
from pathlib import Path
from typing import Iterator

from between import Between, Run
from stage import Answer, Tally, run, wanted

# The calls that matter to what stands on the disk, and those that read.
KINDS = ("open", "read", "write", "sync", "look", "remove", "rename", "lock", "mode")
# Those of them by which a file gets its bytes, its place and its rights, and is on the disk: where one fails, so does the command.
KEEPING = ("write", "sync", "rename", "mode")
FILES = {
    "41MATana.SFM": ("\\id MAT\n\\c 1\n\\v 1 In\n\\v 2 And\n", "\\id MAT\n\\c 1\n\\v 1 ana\n\\v 2 And\n"),
    "MRK.usfm": ("\\id MRK\n\\c 1\n\\v 1 The\n", "\\id MRK\n\\c 1\n\\v 1 The\n"),
    "luke.sfm": ("\\id LUK\n\\c 1\n\\v 1 Forasmuch\n", "\\id LUK\n\\c 1\n\\v 1 ana too\n"),
}
NO_DAY = b"texts/.usfm_team/days does not keep this day: `--since` cannot go back to it\n"
SYNC = ["sync", "p", "texts", "bundle"]
EXPORT = ["export", "p", "--into", "texts"]
JOIN = ["join", "texts", "cy", "--box", "box"]


def check_calls(tally: Tally, between: Between, work: Path) -> None:
    scene = begun(between.program, work / "synced")
    check_command(tally, between, work, SYNC, scene)
    check_command(tally, between, work, EXPORT, ahead(between.program, work / "exported"))
    check_command(tally, between, work, JOIN, invited(between.program, work / "joined"))


def check_command(tally: Tally, between: Between, work: Path, words: list[str], scene: Path) -> None:
    """Disturbs a command that is given in copies of a folder, in each way."""
    given = work / "nothing"
    given.write_bytes(b"")

    def tried(refused: str) -> tuple[Run, Answer, dict[str, bytes]]:
        """What came of the command, of the same again, and what is in the folder then."""
        with tempfile.TemporaryDirectory(dir=work) as place:
            folder = Path(place) / "tried"
            shutil.copytree(scene, folder, symlinks=True)
            first = between.run(folder, words, given, refused)
            again = run(between.program, folder, words) if refused else first.answer
            return first, again, found(folder)

    whole, _, end = tried("")
    tally.check(whole.answer.status == 0 and whole.answer.error == b"", f"{words[0]}: {whole.answer}")
    unseen = set(KINDS) - {call.kind for call in whole.calls}
    tally.check(not unseen, f"{words[0]}: no call is seen of {sorted(unseen)}")
    ways = list(refusals(whole))
    with concurrent.futures.ThreadPoolExecutor(os.cpu_count()) as lanes:
        for way, (first, again, left) in zip(ways, lanes.map(tried, ways)):
            what = f"{words[0]}, {way}: {first.answer}"
            tally.check(is_right(way, first.answer, whole.answer) or is_tried_again(way, first, whole), what)
            tally.check(again.status == 0 and left == end, f"{what}, then {again}, and {sorted(left)}")
    tally.check(len(ways) > 200, f"{words[0]}: {len(ways)} ways were tried")


def refusals(whole: Run) -> Iterator[str]:
    """Each call that is killed, or fails; and each growth that is refused, alone and with all after it."""
    for kind in KINDS:
        for number in range(1, sum(call.kind == kind for call in whole.calls) + 1):
            yield f"{kind}:{number}:kill"
            yield f"{kind}:{number}:{errno.EIO}"
    for number in range(1, whole.asked + 1):
        yield f"memory:{number}:{errno.ENOMEM}"
        yield f"memory:{number}+:{errno.ENOMEM}"


def is_right(way: str, answer: Answer, whole: Answer) -> bool:
    """Whether a command that was disturbed so may answer this. Refused memory is reported as such, or made do without. Of other
    calls some may fail: a file that cannot be read again before it is replaced counts as changed, and is left."""
    kind = way.split(":")[0]
    if way.endswith("kill"):
        return answer.status == -signal.SIGKILL
    if answer.error.endswith(NO_DAY):
        # The day is not kept, and all else is as it would be.
        said = answer.error[: -len(NO_DAY)]
        return (answer.status, answer.output, said) == (whole.status, whole.output, whole.error)
    is_refused = answer.status == 1 and answer.output == b"" and answer.error.startswith(b"fault ")
    is_all_told = answer.output.replace(b"left ", b"wrote ") == whole.output
    if answer.status == 1 and is_all_told and re.match(rb"fault (1|130)\nin box/", answer.error):
        # The bundle of a box could not be written; all else is done.
        return True
    if kind in ("memory", "rename", "look") and is_all_told and answer.status == 1:
        # One file could not be put in its place; the others are.
        fault = b"fault 1" if kind == "memory" else b"fault 130"
        return answer.error.startswith(fault + b"\nin texts/") and answer.output.count(b"left ") == 1
    skipped = (0, b"", b"skipped box/ana.bundle fault 120\n")
    if kind in ("open", "read", "look") and (answer.status, answer.output, answer.error) == skipped:
        # A bundle of a box that cannot be read is skipped, and said; the next sync takes it in.
        return True
    if kind == "memory":
        return answer == whole or is_refused and answer.error.startswith(b"fault 1\n")
    is_done = answer.status == 0 and answer.error == b"" and is_all_told
    return is_refused or is_done and kind not in KEEPING


def is_tried_again(way: str, run: Run, whole: Run) -> bool:
    """Whether the renaming of the project failed once, and was done with both files closed then."""
    renamings = [sum(call.kind == "rename" for call in it.calls) for it in (run, whole)]
    return way.startswith("rename:") and run.answer == whole.answer and renamings[0] == renamings[1] + 1


def begun(program: Path, home: Path) -> Path:
    """A project and a folder that was written, files of which two were changed since, and another's work on two books."""
    texts = home / "texts"
    texts.mkdir(parents=True)
    for name, (before, _) in FILES.items():
        texts.joinpath(name).write_text(before)
    wanted(run(program, home, ["init", "p", "ana"]))
    wanted(run(program, home, ["sync", "p", "texts"]))
    home.joinpath("all").write_bytes(wanted(run(program, home, ["send", "p"])))
    wanted(run(program, home, ["init", "bens", "ben"]))
    wanted(run(program, home, ["receive", "bens", "all"]))
    for place, text in (("MAT 1:2", "\\v 2 ben\n"), ("MRK 1:1", "\\v 1 ben\n"), ("MAT 1:3", "\\v 3 ben\n")):
        wanted(run(program, home, ["edit", "bens", place], text.encode()))
    home.joinpath("bundle").write_bytes(wanted(run(program, home, ["send", "bens"])))
    for name, (_, after) in FILES.items():
        texts.joinpath(name).write_text(after)
    return home


def ahead(program: Path, home: Path) -> Path:
    """The same, with the other's work in the project, and files that were not changed."""
    begun(program, home)
    wanted(run(program, home, ["receive", "p", "bundle"]))
    for name, (before, _) in FILES.items():
        home.joinpath("texts", name).write_text(before)
    return home


def invited(program: Path, home: Path) -> Path:
    """A box with another's bundle, and neither a folder of books nor a project."""
    box = home / "box"
    box.mkdir(parents=True)
    home.joinpath("book").write_text("\\id MAT\n\\c 1\n\\v 1 In\n")
    wanted(run(program, home, ["init", "p", "ana"]))
    wanted(run(program, home, ["import", "p", "book"]))
    box.joinpath("ana.bundle").write_bytes(wanted(run(program, home, ["send", "p"])))
    home.joinpath("p").unlink()
    return home


def found(folder: Path) -> dict[str, bytes]:
    """What stands in a folder and below it, but for the earlier bases, of which there may be one more after a kill, and for the days,
    one of which is not kept where a call for it fails."""
    paths = [it for it in folder.rglob("*") if it.is_file() and not re.fullmatch(r"base\.\d", it.name) and it.parent.name != "days"]
    return {str(path.relative_to(folder)): path.read_bytes() for path in paths}
