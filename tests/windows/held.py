"""Files that another program of Windows has open, as an editor, or one that looks for viruses in a new file."""
import subprocess
import threading
import time
from contextlib import contextmanager
from pathlib import Path
from typing import Iterator

from both import run
from reporting import Tally
from wine import LINKER, Wine

HOLD = Path(__file__).with_name("hold.c")
MATTHEW = "texts/41MAT.SFM"
BOOK = b"\\id MAT\n\\c 1\n\\v 1 In\n"
# For so long the program waits, and no longer than two seconds.
MOMENT = 0.6


class Held:
    def __init__(self, tally: Tally, wine: Wine, program: Path, work: Path) -> None:
        self.tally, self.program, self.folder = tally, program, work / "folder"
        (self.folder / "texts").mkdir(parents=True)
        made = work / "hold.exe"
        subprocess.run([LINKER, "-municode", "-o", made, HOLD], check=True)
        self.holder = wine.script(made)

    def begin(self, name: str, may: str) -> subprocess.Popen:
        streams = {"stdin": subprocess.PIPE, "stdout": subprocess.PIPE}
        holder = subprocess.Popen([self.holder, name, may], cwd=self.folder, **streams)
        held = holder.stdout.readline().strip()
        self.tally.check(held == b"held", f"{name} is held: {held}")
        return holder

    @contextmanager
    def held(self, name: str, may: str) -> Iterator[None]:
        """While another program has a file open, and lets others do with it what `may` says."""
        holder = self.begin(name, may)
        try:
            yield
        finally:
            holder.stdin.close()
            holder.wait(timeout=60)

    def run(self, *words: str, given: bytes = b"") -> tuple[int, bytes, bytes]:
        return run(self.program, self.folder, words, given)

    def told(self, answer: tuple[int, bytes, bytes], name: str, *wanted: bytes) -> None:
        """It says that another program has the file, and the rest as wanted."""
        said = answer[1] + answer[2]
        line = b"another program has this file open: " + name.encode()
        is_told = line in answer[2].splitlines() and all(it in said.splitlines() for it in wanted)
        self.tally.check(is_told, f"{name} is held: {answer}, not {wanted}")

    def all(self) -> None:
        (self.folder / MATTHEW).write_bytes(BOOK)
        for words in (["init", "p", "ana"], ["sync", "p", "texts"]):
            self.tally.check(self.run(*words)[0] == 0, f"{words} before anything is held")
        self.book_read_by_nobody()
        self.book_left()
        self.project_kept()
        self.waited_for()

    def book_read_by_nobody(self) -> None:
        """An editor that lets nobody read its file: `sync` is refused, and nothing is changed."""
        project = (self.folder / "p").read_bytes()
        with self.held(MATTHEW, ""):
            self.told(self.run("sync", "p", "texts"), "41MAT.SFM", b"fault 120", b"in " + MATTHEW.encode())
        self.tally.check((self.folder / "p").read_bytes() == project, "the project stays")

    def book_left(self) -> None:
        """An editor that lets others read its file: it is left, and written by the next `sync`."""
        self.tally.check(self.run("edit", "p", "MAT 1:1", given=b"\\v 1 At\n")[0] == 0, "an edit")
        with self.held(MATTHEW, "rw"):
            self.told(self.run("sync", "p", "texts"), "41MAT.SFM", b"left " + MATTHEW.encode(), b"fault 130")
            self.tally.check((self.folder / MATTHEW).read_bytes() == BOOK, "the book that is held stays")
        answer = self.run("sync", "p", "texts")
        self.tally.check(answer[0] == 0, f"it is written by the next sync: {answer}")
        self.tally.check((self.folder / MATTHEW).read_bytes() == BOOK.replace(b"In", b"At"), "with the edit")

    def project_kept(self) -> None:
        """A project that is held is not changed, and is afterwards."""
        project = (self.folder / "p").read_bytes()
        with self.held("p", "rw"):
            self.told(self.run("edit", "p", "MAT 1:1", given=b"\\v 1 No\n"), "p", b"fault 130")
        self.tally.check((self.folder / "p").read_bytes() == project, "the project that is held stays")
        names = sorted(it.name for it in self.folder.iterdir())
        self.tally.check([it for it in names if it != "p.new"] == ["p", "texts"], f"nothing else is left: {names}")
        self.tally.check(self.run("edit", "p", "MAT 1:1", given=b"\\v 1 Yes\n")[0] == 0, "an edit after that")

    def waited_for(self) -> None:
        """What another program has for a moment is waited for, and nothing is said."""
        for name, words, may in ((MATTHEW, ["sync", "p", "texts"], "r"), ("p", ["edit", "p", "MAT 1:1"], "rw")):
            holder = self.begin(name, may)
            end = threading.Timer(MOMENT, holder.stdin.close)
            end.start()
            began = time.monotonic()
            answer = self.run(*words, given=b"\\v 1 In time\n")
            took = time.monotonic() - began
            self.tally.check(answer[0] == 0 and not answer[2], f"{words} waits for a moment: {answer}")
            self.tally.check(took > MOMENT / 2, f"{words} waited: {took}")
            end.join()
            holder.wait(timeout=60)


def check_held(tally: Tally, wine: Wine, program: Path, work: Path) -> None:
    Held(tally, wine, program, work).all()
