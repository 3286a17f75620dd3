"""What a person at a terminal reads of a fault, and that no bytes of others' texts reach the terminal as its commands."""
import os
import pty
import subprocess
import tty
from pathlib import Path

from order import HELD
from stage import SECONDS, Answer, Tally, run

# Lines that are refused, and lines with something to say that are not.
TOLD = [
    ["edit", "p", "Mat 1:1"],
    ["report", "missing"],
    ["report", "."],
    ["receive", "p", "p"],
    ["receive", "p", "p", "missing"],
    ["init", "p", "ana"],
    ["init", "q", "Ana"],
    ["export", "p", "LUK"],
    ["shown", "p", "MAT 9:9"],
    ["receive", "p", "a\x1b[2J\x9b"],
]
# Lines whose answer is bytes, and lines whose answer is text.
BYTES = [["send", "p"], ["summary", "p"], ["delta", "p", "s"]]
TEXTS = [["shown", "p", "MAT 1:1"], ["export", "p", "MAT"], ["report", "p"]]
# A text that would clear the screen, ring, and write over its line, and what is shown of it.
ODD = b"\\v 1 a\x1b[2J\x07\xc2\x9b31m\tb\rc\r\n"
SHOWN = b"\\v 1 a\\x1b[2J\\x07\\x9b31m\tb\\x0dc\n"


def check_words(tally: Tally, program: Path, work: Path) -> None:
    folder = work / "words"
    folder.mkdir()
    (folder / "p").write_bytes(HELD)
    for words in TOLD:
        plain = run(program, folder, words)
        told = run(program, folder, [*words, "--explain"])
        seen = with_terminal(program, folder, words, "stderr")
        tally.check(told == seen, f"{words} at a terminal: {seen}, and with --explain {told}")
        tally.check(told.error.startswith(plain.error) and told.error != plain.error, f"{words} in words: {told.error}, and {plain.error}")
        tally.check(b"\x1b" not in told.error and b"\x9b" not in told.error, f"{words}: {told.error}")
    (folder / "s").write_bytes(run(program, folder, ["summary", "p"]).output)
    for words in BYTES:
        seen = with_terminal(program, folder, words, "stdout")
        is_refused = seen.status == 2 and seen.output == b"" and seen.error.startswith(b"error: ") and b" > " in seen.error
        tally.check(is_refused, f"{words} to a terminal: {seen}")
        tally.check(run(program, folder, words).status == 0, f"{words} to a pipe")
    run(program, folder, ["edit", "p", "MAT 1:1"], ODD)
    for words in TEXTS:
        bytes_of = run(program, folder, words).output
        seen = with_terminal(program, folder, words, "stdout")
        tally.check(seen == Answer(0, bytes_of.replace(ODD, SHOWN), b""), f"{words} to a terminal: {seen}")
    bundle = run(program, folder, ["send", "p"]).output
    seen = with_terminal(program, folder, ["fold", "MAT"], "stdout", bundle)
    tally.check(SHOWN in seen.output and seen.status == 0, f"fold to a terminal: {seen}")


def with_terminal(program: Path, folder: Path, words: list[str], stream: str, given: bytes = b"") -> Answer:
    """What a command answers where one of its streams is a terminal, which changes no byte."""
    person, terminal = pty.openpty()
    tty.setraw(terminal)
    streams = {"stdout": subprocess.PIPE, "stderr": subprocess.PIPE, stream: terminal}
    command = subprocess.Popen([program, *words], cwd=folder, stdin=subprocess.PIPE, **streams)
    os.close(terminal)
    output, error = command.communicate(given, timeout=SECONDS)
    seen = all_of(person)
    os.close(person)
    return Answer(command.returncode, seen if stream == "stdout" else output, seen if stream == "stderr" else error)


def all_of(person: int) -> bytes:
    """All that was written to a terminal whose other end is closed."""
    seen = b""
    while True:
        try:
            more = os.read(person, 65536)
        except OSError:
            return seen
        if not more:
            return seen
        seen += more
