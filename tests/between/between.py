"""The program with a library between it and the C library, which makes calls fail and records which ones were made."""
import os
import pty
import shutil
import subprocess
import threading
import tty
from dataclasses import dataclass
from pathlib import Path

# Far more than any run takes: a program that hangs is shown as one that fails.
SECONDS = 300


@dataclass(frozen=True)
class Call:
    """A call of the program: its kind, the handle or the path that it is on, the bytes asked for, and its answer."""

    kind: str
    on: str
    asked: int
    answer: int


@dataclass(frozen=True)
class Answer:
    """What the program answered."""

    status: int
    output: bytes
    error: bytes


@dataclass(frozen=True)
class Run:
    """What the program answered, its calls, how often it asked for memory, and the most bytes that it held."""

    answer: Answer
    calls: list[Call]
    asked: int
    most_held: int


@dataclass(frozen=True)
class Alone:
    """A program with no library between, for what makes no call fail."""

    program: Path


class Between:
    """A copy of the program and the library, in a folder for what they write."""

    def __init__(self, program: Path, work: Path) -> None:
        self.program = Path(shutil.copy(program, work / "usfm_team"))
        self.library = work / "between.so"
        compiler = os.environ.get("CC", "cc")
        source = Path(__file__).resolve().parent / "between.c"
        subprocess.run([compiler, "-O2", "-shared", "-fPIC", "-o", self.library, source, "-ldl"], check=True)

    def run(self, folder: Path, words: list[str], given: Path, refused: str = "", at_terminal: bool = False, **wishes: str) -> Run:
        """What comes of the words in a folder, with a file as standard input, while a call is refused.

        Standard output is a pipe, or a terminal. Further wishes go to the library as they are."""
        told = folder.parent / f"{folder.name}.told"
        told.unlink(missing_ok=True)
        environment = {"LD_PRELOAD": str(self.library), "TOLD": str(told), **wishes}
        if refused:
            environment["REFUSE"] = refused
        screen = Screen() if at_terminal else None
        with open(given, "rb") as stream:
            try:
                ran = subprocess.run(
                    [self.program, *words],
                    cwd=folder,
                    stdin=stream,
                    stdout=screen.terminal if screen else subprocess.PIPE,
                    stderr=subprocess.PIPE,
                    timeout=SECONDS,
                    env=environment,
                )
            except subprocess.TimeoutExpired:
                return Run(Answer(-1, b"", b"it does not end"), [], 0, 0)
        answer = Answer(ran.returncode, screen.shown() if screen else ran.stdout, ran.stderr)
        return Run(answer, *read_told(told)) if told.exists() else Run(answer, [], 0, 0)


class Screen:
    """A terminal, and what is written to it, byte for byte."""

    def __init__(self) -> None:
        self.person, self.terminal = pty.openpty()
        tty.setraw(self.terminal)
        self.pieces: list[bytes] = []
        self.reader = threading.Thread(target=self.read)
        self.reader.start()

    def read(self) -> None:
        try:
            while piece := os.read(self.person, 65536):
                self.pieces.append(piece)
        except OSError:
            # Nobody has the terminal open any more.
            pass

    def shown(self) -> bytes:
        os.close(self.terminal)
        self.reader.join()
        os.close(self.person)
        return b"".join(self.pieces)


def read_told(path: Path) -> tuple[list[Call], int, int]:
    """The calls that were written down, how often memory was asked for, and the most bytes that were held."""
    *lines, last = path.read_text().splitlines()
    calls = []
    for line in lines:
        kind, rest = line.split(" ", 1)
        on, asked, answer = rest.rsplit(" ", 2)
        calls.append(Call(kind, on, int(asked), int(answer)))
    _, asked, most_held = last.split()
    return calls, int(asked), int(most_held)
