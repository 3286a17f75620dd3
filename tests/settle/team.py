"""A team's copies in a folder, and commands on them."""
import subprocess
from dataclasses import dataclass
from pathlib import Path
from typing import Iterator

SECONDS = 60
MATTHEW = b"\\id MAT\n\\c 1\n\\p\n\\v 1 In the beginning\n\\v 2 So it was\n\\p\n\\v 3 Then\n"


@dataclass(frozen=True)
class Answer:
    """What a command answers."""

    status: int
    output: bytes
    error: bytes = b""


class Team:
    """Copies of a project in a folder of their own, each a file of its copy's name."""

    def __init__(self, program: Path, folder: Path) -> None:
        folder.mkdir()
        self.program = program
        self.folder = folder

    def answer(self, *words: str, typed: bytes = b"") -> Answer:
        ran = subprocess.run(
            [self.program, *words], cwd=self.folder, input=typed, capture_output=True, timeout=SECONDS
        )
        return Answer(ran.returncode, ran.stdout, ran.stderr)

    def answer_on_full_disk(self, *words: str, typed: bytes) -> tuple[Answer, bytes]:
        """What a command answers whose output is a file on a disk that takes 1,024 bytes of a file, and what is in the file."""
        line = ["bash", "-c", 'trap "" XFSZ; ulimit -f 1; exec "$@" > output', "bash", self.program, *words]
        ran = subprocess.run(line, cwd=self.folder, input=typed, capture_output=True, timeout=SECONDS)
        return Answer(ran.returncode, ran.stdout, ran.stderr), (self.folder / "output").read_bytes()

    def do(self, *words: str, typed: bytes = b"") -> bytes:
        """What a command writes, which may not be refused."""
        answer = self.answer(*words, typed=typed)
        if answer.status != 0 or answer.error:
            raise SystemExit(f"settle: {words} is refused: {answer}")
        return answer.output

    def begin(self, *names: str, book: bytes = MATTHEW) -> None:
        """Begins copies that all have the book, as the first one imported it."""
        for name in names:
            self.do("init", name, name)
        (self.folder / "book").write_bytes(book)
        self.do("import", names[0], "book")
        self.tell(names[0], *names[1:])

    def tell(self, name: str, *others: str) -> None:
        """Gives the others all that a copy has."""
        (self.folder / "bundle").write_bytes(self.do("send", name))
        for other in others:
            self.do("receive", other, "bundle")

    def edit(self, name: str, verse: str, text: bytes) -> None:
        self.do("edit", name, verse, typed=text)

    def differ(self, verse: str, one: bytes, other: bytes, *names: str) -> None:
        """Two copies give a verse two texts, and the first gets the second's."""
        self.edit(names[0], verse, one)
        self.edit(names[1], verse, other)
        self.tell(names[1], names[0])

    def shown(self, name: str, verse: str) -> list[bytes]:
        """The lines by which a segment's operations are listed."""
        return [line for line in self.do("shown", name, verse).split(b"\n") if line.startswith(b"op ")]


def teams(program: Path, work: Path, kind: str) -> Iterator[Team]:
    """One team after another, each in a new folder."""
    for number in range(1, 1000):
        yield Team(program, work / f"{kind}{number}")
