"""A console, as wine shows it at a terminal of Linux's: what is typed, Control-D, and what is set off."""
import os
import pty
import re
import select
import subprocess
import termios
import time
from pathlib import Path

from both import run
from reporting import Tally

SECONDS = 60
# What wine's console writes besides: how the cursor is shown, and that the rest of a line is empty.
AROUND = re.compile(rb"\x1b\[\?25[lh]|\x1b\[K|\r")
BOOK = b"\\id MAT\n\\c 1\n\\v 1 In\n"
TYPED = "\\v 1 שלום 𐤀𐤁 áê"


class Person:
    """Somebody at a console, where a command runs."""

    def __init__(self, program: Path, folder: Path, words: list[str]) -> None:
        self.hand, terminal = pty.openpty()
        streams = {"stdin": terminal, "stdout": terminal, "stderr": terminal}
        environment = dict(os.environ, TERM="xterm")
        self.command = subprocess.Popen([program, *words], cwd=folder, env=environment, start_new_session=True, **streams)
        os.close(terminal)
        self.seen = b""

    def read(self, until: bytes) -> bytes:
        """What comes up to these bytes, or all that comes."""
        latest = time.monotonic() + SECONDS
        while until not in AROUND.sub(b"", self.seen) and time.monotonic() < latest:
            if select.select([self.hand], [], [], 0.2)[0]:
                try:
                    self.seen += os.read(self.hand, 65536)
                except OSError:
                    break
            elif self.command.poll() is not None:
                break
        shown, self.seen = AROUND.sub(b"", self.seen), b""
        return shown

    def type(self, keys: bytes) -> None:
        """Types keys once wine reads each of them: before, Linux would make a line of them."""
        latest = time.monotonic() + SECONDS
        while termios.tcgetattr(self.hand)[3] & termios.ICANON and time.monotonic() < latest:
            time.sleep(0.05)
        os.write(self.hand, keys)

    def end(self) -> int:
        try:
            return self.command.wait(timeout=SECONDS)
        except subprocess.TimeoutExpired:
            self.command.kill()
            return -1
        finally:
            os.close(self.hand)


def check_terminal(tally: Tally, program: Path, folder: Path) -> None:
    folder.mkdir()
    folder.joinpath("book").write_bytes(BOOK)
    for words in (["init", "p", "ana"], ["import", "p", "book"], ["init", "q", "ben"], ["import", "q", "book"]):
        tally.check(run(program, folder, words)[0] == 0, f"{words} before the console")
    check_typed(tally, program, folder)
    check_settled(tally, program, folder)


def check_typed(tally: Tally, program: Path, folder: Path) -> None:
    """A text with letters beyond the basic plane, which Control-D ends."""
    person = Person(program, folder, ["edit", "p", "MAT 1:1"])
    asked = person.read(b"ends it.\n")
    tally.check(b"the segment shows" in asked and b"\\v 1 In\n" in asked, f"what is asked at a console: {asked}")
    person.type(TYPED.encode() + b"\r")
    person.type(b"\x04")
    told = person.read(b"made 4 ana\n")
    tally.check(person.end() == 0 and told.endswith(b"made 4 ana\n"), f"after Control-D: {told}")
    book = run(program, folder, ["export", "p", "MAT"])[1].decode()
    tally.check(book == f"\\id MAT\n\\c 1\n{TYPED}\n", f"the text that was typed: {book!r}")


def check_settled(tally: Tally, program: Path, folder: Path) -> None:
    """What differs is in reverse, and a key settles it."""
    folder.joinpath("bundle").write_bytes(run(program, folder, ["send", "q"])[1])
    run(program, folder, ["init", "r", "cy"])
    run(program, folder, ["receive", "r", "bundle"])
    for project, text in (("q", b"\\v 1 At last\n"), ("r", b"\\v 1 To last\n")):
        run(program, folder, ["edit", project, "MAT 1:1"], text)
    folder.joinpath("bundle").write_bytes(run(program, folder, ["send", "q"])[1])
    run(program, folder, ["receive", "r", "bundle"])
    person = Person(program, folder, ["settle", "r"])
    asked = person.read(b"q to stop.\n")
    tally.check(b"\\v 1 \x1b[7mAt\x1b[27m last\n" in asked, f"what differs is in reverse: {asked}")
    person.type(b"1\r")
    told = person.read(b"conflicts 0\n")
    tally.check(person.end() == 0 and told.endswith(b"settled 1\nconflicts 0\n"), f"one conflict is settled: {told}")
