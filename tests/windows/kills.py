"""The program for Windows, killed in the place of each call of the shim, beside that of Linux, killed at each of its calls: they leave
the same projects and folders, and what comes next is the same."""
import os
import shutil
import subprocess
from concurrent.futures import ThreadPoolExecutor
from dataclasses import dataclass
from pathlib import Path

from both import SECONDS, differing, run, tree
from between import Between
from reporting import Tally

# How the program ends that `windows/link --counted` makes.
ENDED = 99
# More calls than any of the commands makes.
MOST_CALLS, MOST_LINKS = 2_000, 3
WORKERS = 4

MATTHEW = b"\\id MAT\n\\c 1\n\\v 1 In\n\\v 2 And\n"
MARK = b"\\id MRK\n\\c 1\n\\v 1 The\n"


@dataclass(frozen=True)
class Play:
    """A command, and what is done before it."""

    words: tuple[str, ...]
    before: tuple[tuple[str, ...], ...] = ()
    given: bytes = b""
    # What is put into files between: names and bytes.
    files: tuple[tuple[str, bytes], ...] = ()


BEGUN = (("init", "p", "ana"), ("init", "q", "ben"))
SYNCED = BEGUN + (("sync", "p", "texts"), ("sync", "p", "texts", "--box", "box"), ("sync", "q", "bens", "--box", "box"))
CHANGED = (("texts/41MAT.SFM", MATTHEW.replace(b"In", b"At")), ("bens/MAT.usfm", MATTHEW.replace(b"And", b"Then")))
PLAYS = [
    Play(("init", "p", "ana")),
    Play(("import", "p", "book"), BEGUN),
    Play(("edit", "p", "MAT 1:1"), BEGUN + (("import", "p", "book"),), b"\\v 1 Other\n"),
    Play(("sync", "p", "texts"), BEGUN),
    Play(("sync", "p", "texts", "--box", "box"), SYNCED, files=CHANGED),
    Play(("sync", "q", "bens", "--box", "box"), SYNCED + (("edit", "p", "MRK 1:1"), ("sync", "p", "texts", "--box", "box")), files=CHANGED),
    Play(("export", "p", "--into", "others"), SYNCED),
    Play(("thin", "p"), SYNCED + (("edit", "p", "MAT 1:1"),)),
]


def prepare(play: Play, program: Path, folder: Path) -> None:
    """Makes the folder as it is before the command."""
    for name in ("texts", "bens", "others", "box"):
        (folder / name).mkdir(parents=True)
    (folder / "texts/41MAT.SFM").write_bytes(MATTHEW)
    (folder / "texts/42MRK.SFM").write_bytes(MARK)
    (folder / "book").write_bytes(MATTHEW)
    for words in play.before:
        given = b"\\v 1 Once more\n" if words[0] == "edit" else b""
        status, _, error = run(program, folder, words, given)
        if status:
            raise SystemExit(f"windows: {words} is refused before a kill: {error!r}")
    for name, content in play.files:
        (folder / name).write_bytes(content)


class Killing:
    """A command, and a folder for each of its kills."""

    def __init__(self, tally: Tally, between: Between, windows: Path, counted: Path, play: Play, work: Path) -> None:
        self.tally, self.between, self.windows, self.counted, self.play, self.work = tally, between, windows, counted, play, work
        work.mkdir()
        self.folder = work / "folder"
        self.given = work / "given"
        self.given.write_bytes(play.given)
        prepare(play, between.program, work / "before")

    def begin(self) -> None:
        shutil.rmtree(self.folder, ignore_errors=True)
        shutil.copytree(self.work / "before", self.folder)

    def all(self) -> None:
        linux = self.left_by_linux()
        windows = self.left_by_windows()
        for state, moment in windows.items():
            self.tally.check(state in linux, f"{self.play.words}, {moment}: it leaves what Linux does not: {self.nearest(state, linux)}")
        for state, moment in linux.items():
            self.tally.check(state in windows, f"{self.play.words}, {moment} on Linux: the other never leaves that")
        for state, moment in windows.items():
            self.go_on(dict(state), moment)

    def nearest(self, state: tuple, others: dict) -> list[str]:
        return min((differing(dict(other), dict(state)) for other in others), key=len)

    def left_by_linux(self) -> dict[tuple, str]:
        """What is left by a kill at each call, and by none, with the first kill that leaves it."""
        self.begin()
        calls = self.between.run(self.folder, list(self.play.words), self.given).calls
        found = {tuple(tree(self.folder).items()): "at the end"}
        made: dict[str, int] = {}
        # Links are not among the calls that are written down, and no command makes more.
        for kind in [*(call.kind for call in calls), *["link"] * MOST_LINKS]:
            made[kind] = made.get(kind, 0) + 1
            moment = f"{kind}:{made[kind]}"
            self.begin()
            self.between.run(self.folder, list(self.play.words), self.given, f"{moment}:kill")
            found.setdefault(tuple(tree(self.folder).items()), moment)
        return found

    def left_by_windows(self) -> dict[tuple, str]:
        found: dict[tuple, str] = {}
        for number in range(1, MOST_CALLS):
            self.begin()
            environment = dict(os.environ, SHIM_ENDS_AT=str(number))
            ran = subprocess.run(
                [self.counted, *self.play.words],
                cwd=self.folder,
                input=self.play.given,
                capture_output=True,
                timeout=SECONDS,
                env=environment,
            )
            is_end = ran.returncode != ENDED
            found.setdefault(tuple(tree(self.folder).items()), "at the end" if is_end else f"call {number}")
            self.tally.check(not is_end or ran.returncode == 0, f"{self.play.words}, call {number}: {ran}")
            if is_end:
                break
        return found

    def go_on(self, state: dict[str, bytes], moment: str) -> None:
        """The command is given again where it was killed, by both programs."""
        came = []
        for program in (self.between.program, self.windows):
            folder = self.work / "again"
            shutil.rmtree(folder, ignore_errors=True)
            put(state, folder)
            came.append((run(program, folder, self.play.words, self.play.given), tree(folder)))
        (linux, left), (windows, also_left) = came
        wrong = [] if linux == windows else [f"linux {linux}, windows {windows}"]
        wrong += differing(left, also_left)
        self.tally.check(not wrong, f"{self.play.words}, again after {moment}: {wrong}")


def put(state: dict[str, bytes], folder: Path) -> None:
    """Makes a folder anew. Names of one file are files of their own then."""
    folder.mkdir()
    for name, content in state.items():
        if name.endswith("/"):
            (folder / name).mkdir(parents=True, exist_ok=True)
        else:
            (folder / name).parent.mkdir(parents=True, exist_ok=True)
            (folder / name).write_bytes(content)


def check_kills(tally: Tally, linux: Path, windows: Path, counted: Path, work: Path) -> None:
    work.mkdir()
    between = Between(linux, work)

    def play(number: int) -> None:
        Killing(tally, between, windows, counted, PLAYS[number], work / f"kill{number}").all()

    with ThreadPoolExecutor(WORKERS) as pool:
        list(pool.map(play, range(len(PLAYS))))
