"""The second implementation in place of the program, in rows (tests/program/worked)."""
import shlex
import subprocess
from pathlib import Path

from model.program import Folder, run
from playing import Answer, Stage, chosen, played

ROWS = Path(__file__).resolve().parent.parent / "program"


class SecondStage(Stage):
    """A folder in which the second implementation answers for the program."""

    def run(self, command: str) -> Answer:
        """The answer of a line that runs the program once, with files as its streams, or into a pipe.

        Bash has the other lines, and what the pipe goes to."""
        command, *filters = command.split(" | ", 1)
        line = shlex.shlex(command, posix=True, punctuation_chars="<>")
        line.whitespace_split = True
        words = list(line)
        if words[0] != "usfm_team":
            return super().run(" | ".join([command, *filters]))
        given, output = b"", None
        while words[-2] in ("<", "<<<", ">"):
            *words, mark, name = words
            if mark == ">":
                output = self.folder / name
            else:
                text = name.encode() + b"\n"
                given = text if mark == "<<<" else (self.folder / name).read_bytes()
        answer = self.answer(words[1:], given)
        if filters:
            ran = subprocess.run(["bash", "-c", filters[0]], input=answer.output, stdout=subprocess.PIPE)
            return Answer(answer.status or ran.returncode, ran.stdout, answer.error)
        if output is None:
            return answer
        output.write_bytes(answer.output)
        return Answer(answer.status, b"", answer.error)

    def answer(self, words: list[str], given: bytes) -> Answer:
        """The answer of these words, with the files as they are then in the folder."""
        files = [it for it in self.folder.rglob("*") if it.is_file()]
        before = {str(it.relative_to(self.folder)): it.read_bytes() for it in files}
        after: Folder = dict(before)
        answer = run(after, words, given)
        for name in [it for it in after if after[it] != before.get(it)]:
            (self.folder / name).parent.mkdir(exist_ok=True)
            (self.folder / name).write_bytes(after[name])
        for name in before.keys() - after.keys():
            (self.folder / name).unlink()
        return Answer(answer.status, answer.output, answer.error)


def play_worked(program: Path) -> tuple[int, list[str]]:
    """How many rows the second implementation meets, and what is wrong of the others."""
    plays = [it for it in chosen(ROWS, []) if it.path.parent.name == "worked"]
    stages = played(plays, ROWS, program, SecondStage)
    return sum(it.passed for it in stages), [wrong for it in stages for wrong in it.failures]
