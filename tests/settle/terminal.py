"""Conflicts that are settled at a terminal."""
import os
import pty
import select
import signal
import subprocess
import time
from pathlib import Path

from reporting import Tally
from team import SECONDS, Team, teams

END = b"\x04"
INTERRUPT = b"\x03"
ASKS = b"q to stop.\r\n"
REVERSE, PLAIN = b"\x1b[7m", b"\x1b[27m"


class Person:
    """Somebody at a terminal, where `settle` runs."""

    def __init__(self, team: Team, *words: str) -> None:
        self.hand, terminal = pty.openpty()
        self.command = subprocess.Popen(
            [team.program, "settle", *words], cwd=team.folder, stdin=terminal, stdout=terminal, stderr=terminal,
            start_new_session=True, preexec_fn=lambda: own_terminal(terminal),
        )
        os.close(terminal)
        self.seen = b""
        self.keys = 0

    def type(self, keys: bytes) -> None:
        self.keys += len(keys)
        os.write(self.hand, keys)

    def read(self, wanted: bytes) -> bytes:
        """What the terminal shows up to these bytes, or to the end."""
        until = time.monotonic() + SECONDS
        while wanted not in self.seen and time.monotonic() < until:
            if not select.select([self.hand], [], [], 1)[0]:
                continue
            try:
                self.seen += os.read(self.hand, 65536)
            except OSError:
                break
        shown, found, self.seen = self.seen.partition(wanted)
        return shown + found

    def end(self) -> int:
        """How the command ends."""
        status = self.command.wait(SECONDS)
        os.close(self.hand)
        return status


def own_terminal(terminal: int) -> None:
    """Makes it the terminal of the process, so that control-C reaches it, and ends it also where the test runs in the background."""
    import fcntl
    import termios

    signal.signal(signal.SIGINT, signal.SIG_DFL)
    fcntl.ioctl(terminal, termios.TIOCSCTTY, 0)


def check_terminal(tally: Tally, program: Path, work: Path) -> None:
    each = teams(program, work, "terminal")
    for check in (check_keys, check_overtaken, check_beside, check_settled, check_typed, check_end, check_interrupt):
        check(tally, next(each))


def begin(team: Team) -> None:
    team.begin("ana", "ben", "cy")
    team.differ("MAT 1:1", b"\\v 1 To the beginning\n", b"\\v 1 At the beginning\n", "ana", "ben")
    team.differ("MAT 1:2", b"\\v 2 So it was once\n\\p\n", b"\\v 2 So it is\n\\p\n", "ana", "ben")


def check_keys(tally: Tally, team: Team) -> None:
    """Two conflicts are settled in one command and four keys."""
    begin(team)
    person = Person(team, "ana")
    first = person.read(ASKS)
    tally.check(b"\\v 1 " + REVERSE + b"At" + PLAIN + b" the beginning" in first, f"what differs is in reverse: {first}")
    person.type(b"2\r")
    person.read(ASKS)
    person.type(b"1\r")
    rest = person.read(b"conflicts 0\r\n")
    tally.check(b"made 9 ana\r\nsettled 2\r\nconflicts 0\r\n" in rest, f"both are settled: {rest}")
    tally.check(person.end() == 0 and person.keys <= 10, "at most ten keys")
    tally.check(team.do("report", "ana") == b"", "no conflict is left")


def asked_meanwhile(person: Person, team: Team) -> bytes:
    """Cy's work comes in while the question stands; what is asked after the answer to it."""
    person.read(ASKS)
    team.tell("cy", "ana")
    person.type(b"2\r")
    return person.read(ASKS)


def check_one_settled(tally: Tally, person: Person, answer: bytes, left: int, what: str) -> None:
    """One conflict is settled by the end, and so many are left."""
    person.type(answer + b"\r")
    rest = person.read(b"conflicts %d\r\n" % left)
    tally.check(b"settled 1\r\nconflicts %d\r\n" % left in rest and person.end() == 0, f"{what}: {rest}")


def check_overtaken(tally: Tally, team: Team) -> None:
    """A text that replaced one of those that were asked is asked again, and is not replaced unseen."""
    begin(team)
    team.tell("ana", "cy")
    team.do("edit-over", "cy", "MAT 1:1", "6:ben", typed=b"\\v 1 By the beginning\n")
    person = Person(team, "ana", "MAT 1:1")
    again = asked_meanwhile(person, team)
    tally.check(b"Nothing was changed: 6 ben was replaced meanwhile. Read again." in again, f"it is said: {again}")
    tally.check(b"1: 8 cy, in the book" in again and b"2: 6 ana" in again, f"the new text is asked: {again}")
    tally.check(team.shown("ana", "MAT 1:1") == [b"op 6 ana 22", b"op 8 cy 22"], "nothing was replaced")
    check_one_settled(tally, person, b"1", 0, "then it is settled")


def check_beside(tally: Tally, team: Team) -> None:
    """A third text that comes in beside the two is not replaced, and is asked next."""
    begin(team)
    team.edit("cy", "MAT 1:1", b"\\v 1 By the beginning\n")
    person = Person(team, "ana", "MAT 1:1")
    again = asked_meanwhile(person, team)
    tally.check(b"made 8 ana" in again and b"2: 6 cy" in again, f"the third text is asked beside the new one: {again}")
    tally.check(team.shown("ana", "MAT 1:1") == [b"op 6 cy 22", b"op 8 ana 22"], "the third text is shown")
    check_one_settled(tally, person, b"q", 1, "it is left")


def check_settled(tally: Tally, team: Team) -> None:
    """Where somebody else settled the conflict meanwhile, the next one is asked."""
    begin(team)
    person = Person(team, "ana")
    person.read(ASKS)
    team.edit("ana", "MAT 1:1", b"\\v 1 Settled\n")
    person.type(b"2\r")
    again = person.read(ASKS)
    tally.check(b"was replaced meanwhile" in again and b"MAT 1:2, 1 left" in again, f"the next one is asked: {again}")
    person.type(b"q\r")
    person.read(b"conflicts 1\r\n")
    tally.check(person.end() == 0, "it ends")
    tally.check(b"Settled" in team.do("export", "ana", "MAT"), "the other's text stays")


def check_typed(tally: Tally, team: Team) -> None:
    begin(team)
    person = Person(team, "ana", "MAT")
    person.read(ASKS)
    person.type(b"e\r")
    person.read(b"beginning]\r\n")
    person.type(b"As it began\r")
    again = person.read(b"s or q.\r\n")
    tally.check(b"that is no text of this segment" in again, f"a text without its mark: {again}")
    person.type(b"e\r")
    person.read(b"beginning]\r\n")
    person.type(b"\\v 1 " + b"word " * 1000 + b"\r")
    again = person.read(b"s or q.\r\n")
    tally.check(b"no more than 4,095 bytes of a line" in again, f"a line that the terminal cuts: {again[-300:]}")
    person.type(b"e\r")
    person.read(b"beginning]\r\n")
    person.type(("\\v 1 " + "שלום wort " * 250).encode() + b"\r")
    shown = person.read(ASKS)
    tally.check(b"made 8 ana" in shown, f"a line of 2,500 characters: {shown[-300:]}")
    person.type(b"s\r")
    rest = person.read(b"conflicts 1\r\n")
    tally.check(b"settled 1\r\nconflicts 1\r\n" in rest and person.end() == 0, f"the second is skipped: {rest}")
    tally.check(team.do("export", "ana", "MAT").decode().count("שלום") == 250, "the text is as it was typed")


def check_end(tally: Tally, team: Team) -> None:
    """Control-D ends it, also while a text is typed."""
    begin(team)
    before = (team.folder / "ana").read_bytes()
    for typed in (b"", b"e\r"):
        person = Person(team, "ana")
        person.read(ASKS)
        person.type(typed + END)
        rest = person.read(b"conflicts 2\r\n")
        tally.check(b"settled 0\r\nconflicts 2\r\n" in rest and person.end() == 0, f"control-D after {typed}: {rest}")
        tally.check((b"Nothing was changed" in rest) == (typed != b""), f"a text that is not taken is said: {rest}")
    tally.check((team.folder / "ana").read_bytes() == before, "nothing was made")


def check_interrupt(tally: Tally, team: Team) -> None:
    """Control-C ends it too, and nothing is locked while the question stands."""
    begin(team)
    person = Person(team, "ana")
    person.read(ASKS)
    before = (team.folder / "ana").read_bytes()
    team.do("thin", "ana")
    person.type(INTERRUPT)
    tally.check(person.end() == -signal.SIGINT, "control-C ends it")
    team.do("export", "ana", "MAT")
    names = sorted(it.name for it in team.folder.iterdir())
    tally.check(names == ["ana", "ben", "book", "bundle", "cy"] and before != b"", f"nothing else is left: {names}")
