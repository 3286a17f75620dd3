"""A folder with a project, and what is counted."""
import shutil
import subprocess
from dataclasses import dataclass
from pathlib import Path
from typing import Optional

from reporting import Tally

# Far more than any command takes: one that waits for ever is shown as one that fails.
SECONDS = 60


@dataclass(frozen=True)
class Answer:
    """What a command answered."""

    status: int
    output: bytes
    error: bytes


def run(program: Path, folder: Path, words: list[str], given: bytes = b"", umask: int = -1, user: Optional[int] = None) -> Answer:
    """Runs a command in a folder, with these bytes as standard input."""
    ran = subprocess.run(
        [program, *words],
        cwd=folder,
        input=given,
        capture_output=True,
        timeout=SECONDS,
        umask=umask,
        user=user,
        group=user,
        extra_groups=[] if user is not None else None,
    )
    return Answer(ran.returncode, ran.stdout, ran.stderr)


def begin(program: Path, folder: Path, book: Optional[bytes] = None) -> None:
    """Makes a folder with a project `p` of ana in it, which has a book."""
    shutil.rmtree(folder, ignore_errors=True)
    folder.mkdir()
    wanted(run(program, folder, ["init", "p", "ana"]))
    if book is not None:
        folder.joinpath("book").write_bytes(book)
        wanted(run(program, folder, ["import", "p", "book"]))


def wanted(answer: Answer) -> bytes:
    """The output of a command that has to succeed."""
    if answer.status != 0 or answer.error:
        raise SystemExit(f"disk: a command before the test was refused: {answer}")
    return answer.output
