"""What a command says if a person types its input, and if nobody does."""
import os
import pty
import subprocess
import termios
from pathlib import Path

from order import HELD
from rows.vectors import FIRST
from stage import SECONDS, Answer, Tally, run

END = b"\x04"
TEXT = b"\\v 1 As\n"
SHOWN = b"usfm_team: the segment shows\nop 2 ana 8\n\\v 1 In\n\n"
# The commands that read standard input, what is typed, what is said before that of the segment, and what they answer.
TYPED = [
    (["edit", "p", "MAT 1:1"], TEXT, SHOWN, Answer(0, b"made 3 ana\n", b"")),
    (["edit-over", "p", "MAT 1:1", "2:ana"], TEXT, SHOWN, Answer(0, b"made 3 ana\n", b"")),
    (["fold", "MAT"], b"", b"", Answer(1, b"", b"fault 82\n")),
]


def check_terminal(tally: Tally, program: Path, work: Path) -> None:
    folder = work / "terminal"
    folder.mkdir()
    project = folder / "p"
    for words, typed, shown, wanted in TYPED:
        project.write_bytes(HELD)
        answer = at_terminal(program, folder, words, typed)
        asked, end, rest = answer.error.removeprefix(shown).partition(b"ontrol-D on a new line ends it")
        is_told = answer.error.startswith(shown) and asked.startswith(b"usfm_team: ") and end != b""
        is_right = Answer(answer.status, answer.output, rest.partition(b"\n")[2]) == wanted
        tally.check(is_told and is_right, f"{words[0]} at a terminal: {answer}")
        project.write_bytes(HELD)
        tally.check(run(program, folder, words, typed) == wanted, f"{words[0]} of a pipe says nothing more")
        project.write_bytes(HELD)
        tally.check(of_file(program, folder, words, typed) == wanted, f"{words[0]} of a file says nothing more")
    for words in (["edit", "p", "MAT 1:1"], ["edit-over", "p", "MAT 1:1", "2:ana"]):
        project.write_bytes(HELD)
        answer = at_terminal(program, folder, [*words, "--explain"], b"\\v 1 " + b"word " * 1000 + b"\n")
        is_refused = (answer.status, answer.output) == (1, b"") and b"no more than 4,095 bytes of a line" in answer.error
        tally.check(is_refused and project.read_bytes() == HELD, f"{words[0]} of a line that the terminal cuts: {answer}")
    for words in (["export", "p", "MAT"], ["send", "p"]):
        project.write_bytes(HELD)
        tally.check(at_terminal(program, folder, words, b"").error == b"", f"{words[0]} at a terminal says nothing")
    for words in (["edit", "p", "MAT 1:1"], ["edit-over", "p", "MAT 1:1", "2:ana"]):
        project.write_bytes(HELD)
        answer = at_terminal(program, folder, words, b"")
        is_told = (answer.status, answer.output) == (0, b"") and b"Nothing was changed: no text was typed." in answer.error
        tally.check(is_told and project.read_bytes() == HELD, f"{words[0]} where nothing is typed: {answer}")
    for segment in ("MRK 1:1", "MRK 0:1"):
        absent = at_terminal(program, folder, ["edit", "p", segment], b"")
        tally.check(absent == Answer(1, b"", b"fault 82\n"), f"a book that is not there is said before a text is asked for: {absent}")
    beside = at_terminal(program, folder, ["edit-over", "p", "MAT 1:1"], b"")
    tally.check(b"it replaces nothing" in beside.error, f"where no id is named: {beside}")
    check_thin(tally, program, folder)
    missing = at_terminal(program, folder, ["edit", "missing", "MAT 1:1"], b"")
    tally.check(missing == Answer(1, b"", b"fault 120\n"), f"a project that is missing is said before a text is asked for: {missing}")
    tally.check(wanted_book(run(program, folder, ["fold", "MAT"], FIRST)), "fold of a bundle")


def check_thin(tally: Tally, program: Path, folder: Path) -> None:
    """`thin` asks a person, and a pipe it asks nothing."""
    project = folder / "p"
    project.write_bytes(HELD)
    run(program, folder, ["edit", "p", "MAT 1:1"], TEXT)
    edited = project.read_bytes()
    for typed in (b"", b"no\n", b"y\n", b"yes \n"):
        answer = at_terminal(program, folder, ["thin", "p"], typed)
        is_asked = b"texts that would be left out: 1, of segments: 1\n" in answer.error and b"Type yes: " in answer.error
        is_kept = (answer.status, answer.output, project.read_bytes()) == (0, b"", edited)
        tally.check(is_asked and is_kept, f"thin at a terminal, answered {typed!r}: {answer}")
    answer = at_terminal(program, folder, ["thin", "p"], b"yes\n")
    tally.check((answer.status, answer.output) == (0, b"thinned 1\n"), f"thin at a terminal, answered yes: {answer}")
    tally.check(at_terminal(program, folder, ["thin", "p"], b"") == Answer(0, b"thinned 0\n", b""), "where nothing goes, nothing is asked")
    project.write_bytes(edited)
    tally.check(run(program, folder, ["thin", "p"], b"") == Answer(0, b"thinned 1\n", b""), "thin of a pipe asks nothing")


def wanted_book(answer: Answer) -> bool:
    return answer == Answer(0, b"\\id MAT\n\\c 1\n\\v 1 In\n", b"")


def at_terminal(program: Path, folder: Path, words: list[str], typed: bytes) -> Answer:
    """What a command answers to somebody who types this, and then control-D on a line of its own."""
    person, terminal = pty.openpty()
    # What is typed is not shown.
    settings = termios.tcgetattr(terminal)
    settings[3] &= ~termios.ECHO
    termios.tcsetattr(terminal, termios.TCSANOW, settings)
    command = subprocess.Popen([program, *words], cwd=folder, stdin=terminal, stdout=subprocess.PIPE, stderr=subprocess.PIPE)
    os.close(terminal)
    os.write(person, typed + END)
    output, error = command.communicate(timeout=SECONDS)
    os.close(person)
    return Answer(command.returncode, output, error)


def of_file(program: Path, folder: Path, words: list[str], content: bytes) -> Answer:
    """What a command answers where standard input is a file."""
    path = folder / "typed"
    path.write_bytes(content)
    with open(path, "rb") as stream:
        ran = subprocess.run([program, *words], cwd=folder, stdin=stream, capture_output=True, timeout=SECONDS)
    return Answer(ran.returncode, ran.stdout, ran.stderr)
