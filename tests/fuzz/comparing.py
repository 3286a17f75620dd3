"""Plays on the program, compared with what they have to give."""
import os
import re
import shlex
import shutil
import subprocess
from pathlib import Path
from typing import Optional

from making.plays import Play, Step, Wanted, wanted_of
from model.program import TODAY, Answer, Content, Zeros

# Far more than any step takes: a program that hangs is shown as one that differs.
SECONDS = 100
# A file that keeps what a project was on a day.
DAY = re.compile(r"(/\.usfm_team/days/)\d{4}-\d\d-\d\d$")


class Stage:
    """A folder in which the program plays, and beside it what each step reads and writes."""

    def __init__(self, program: Path, work: Path) -> None:
        self.program = program
        self.folder = work / "folder"
        self.input = work / "input"

    def difference(self, play: Play, wanted: list[Wanted]) -> Optional[str]:
        """Plays in an empty folder, and shows the first step that comes out otherwise, if one does."""
        shutil.rmtree(self.folder, ignore_errors=True)
        self.folder.mkdir()
        for number, (step, want) in enumerate(zip(play, wanted), start=1):
            wrong = self.wrong_with(step, want)
            if wrong:
                return "\n    ".join([f"step {number} of {len(play)}: {line_of(step)}", *wrong])
        return None

    def wrong_with(self, step: Step, want: Wanted) -> list[str]:
        """What is wrong with a step: its answer, or a file of the folder afterwards."""
        for name, content in step.files:
            write(self.folder / name, content)
        write(self.input, step.given)
        wrong = []
        given = self.run(step)
        if not same_answer(want.answer, given):
            wrong += [f"wanted: {shown(want.answer)}", f"given:  {shown(given)}"]
        return wrong + self.wrong_files(want)

    def run(self, step: Step) -> Answer:
        """What the program answers."""
        with open(self.input, "rb") as given:
            try:
                ran = subprocess.run(
                    [self.program, *(it.encode() for it in step.words)],
                    cwd=self.folder,
                    stdin=given,
                    capture_output=True,
                    timeout=SECONDS,
                )
            except subprocess.TimeoutExpired:
                return Answer(-1, b"", b"it does not end")
        return Answer(ran.returncode, ran.stdout, ran.stderr)

    def wrong_files(self, want: Wanted) -> list[str]:
        """What is wrong with the files of the folder."""
        names = {of_today(str(it.relative_to(self.folder))): it for it in self.folder.rglob("*") if not it.is_dir()}
        if sorted(names) != sorted(want.folder):
            return [f"wanted files: {sorted(want.folder)}", f"given files:  {sorted(names)}"]
        wrong = []
        for name, content in want.folder.items():
            if isinstance(content, Zeros):
                continue
            found = names[name].read_bytes()
            if found != content:
                wrong += [f"file {name}, wanted: {content!r}", f"file {name}, given:  {found!r}"]
        return wrong

    def shortened(self, play: Play) -> Play:
        """The play without the steps that its difference does not need."""
        place = len(play)
        while place:
            place -= 1
            rest = play[:place] + play[place + 1 :]
            if self.difference(rest, wanted_of(rest)):
                play = rest
        return play


def of_today(name: str) -> str:
    """The name of a file, which for each day in a folder's `days` is that of this day."""
    return DAY.sub(rf"\g<1>{TODAY}", name)


def write(path: Path, content: Optional[Content]) -> None:
    """Writes a file, or takes it away. Zeros take no room on the disk."""
    path.parent.mkdir(parents=True, exist_ok=True)
    if content is None:
        path.unlink(missing_ok=True)
    elif isinstance(content, Zeros):
        path.write_bytes(b"")
        os.truncate(path, content.length)
    else:
        path.write_bytes(content)


def same_answer(want: Answer, given: Answer) -> bool:
    """Whether an answer is the wanted one. Of usage it is only known that it is on standard error."""
    if want.error is None:
        right = given.error != b"" and not given.error.startswith(b"fault")
    else:
        right = given.error == want.error
    return right and (want.status, want.output) == (given.status, given.output)


def shown(answer: Answer) -> str:
    """An answer in a line."""
    error = "some usage" if answer.error is None else repr(answer.error)
    return f"status {answer.status}, output {answer.output!r}, error {error}"


def line_of(step: Step) -> str:
    """A step in a line: its words, its files and its standard input."""
    line = shlex.join(("usfm_team", *step.words))
    for name, content in step.files:
        line += f", {name} = {content!r}"
    return line + (f", standard input = {step.given!r}" if step.given else "")
