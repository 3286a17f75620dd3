"""Writers that are killed."""
import random
import shutil
import subprocess
import time
from concurrent.futures import ThreadPoolExecutor
from pathlib import Path

from books import Book
from stage import Tally, begin, run, wanted

KILLS, WRITERS = 300, 4
# When a kill came: before the change, or after it.
BEFORE, AFTER = ("before it", "with PROJECT.new there"), ("after the renaming", "after the answer")


def check_kills(tally: Tally, program: Path, work: Path, book: Book) -> None:
    folder = work / "kills"
    begin(program, folder, book.content)
    project = folder.joinpath("p").read_bytes()

    def play(writer: int) -> list[str]:
        own = work / f"kills{writer}"
        own.mkdir()
        return Killing(tally, program, own, book, project, writer).all()

    with ThreadPoolExecutor(WRITERS) as pool:
        moments = [moment for of_one in pool.map(play, range(WRITERS)) for moment in of_one]
    kinds = {kind: moments.count(kind) for kind in BEFORE + AFTER}
    told = "killed " + ", ".join(f"{count} {kind}" for kind, count in kinds.items())
    tally.check(any(kinds[it] for it in BEFORE) and any(kinds[it] for it in AFTER), told)
    print(f"disk: {told}")


class Killing:
    """A project in a folder of its own, whose writers are killed one after the other."""

    def __init__(self, tally: Tally, program: Path, folder: Path, book: Book, project: bytes, seed: int) -> None:
        self.tally = tally
        self.program = program
        self.folder = folder
        self.project = folder / "p"
        self.new = folder / "p.new"
        self.twin = folder / "twin"
        self.book = book
        self.chance = random.Random(seed)
        self.project.write_bytes(project)
        self.twin.mkdir()

    def all(self) -> list[str]:
        """Kills one after the other, and says of each when it was: before, at or after the change."""
        # Some are to come after the change, also where most edits take longer than this one.
        longest = self.whole_edit() * 1.25
        return [self.kill(self.chance.uniform(0, longest)) for _ in range(KILLS // WRITERS)]

    def edit(self) -> tuple[list[str], bytes]:
        verse = self.chance.choice(self.book.verses)
        return ["edit", "p", verse.place], b"\\v %d %d\n" % (verse.number, self.chance.randrange(10**9))

    def whole_edit(self) -> float:
        """The seconds that an edit takes here."""
        words, text = self.edit()
        began = time.monotonic()
        wanted(run(self.program, self.folder, words, text))
        return time.monotonic() - began

    def kill(self, after: float) -> str:
        """Kills an edit after this many seconds, and looks at what is left; then gives a command that is not killed."""
        words, text = self.edit()
        old = self.project.read_bytes()
        shutil.copy(self.project, self.twin / "p")
        told = wanted(run(self.program, self.twin, words, text))
        new = self.twin.joinpath("p").read_bytes()
        output = self.killed(words, text, after)
        found = self.project.read_bytes()
        self.tally.check(found == new or found == old and not output, f"killed after {after:.4f} s: {len(found)} bytes, {output!r}")
        self.tally.check(output in (b"", told), f"killed after {after:.4f} s: it answered {output!r}")
        moment = AFTER[bool(output)] if found == new else BEFORE[self.new.exists()]
        words, text = self.edit()
        wanted(run(self.program, self.folder, words, text))
        self.tally.check(text in self.project.read_bytes() and not self.new.exists(), "the next command goes on")
        return moment

    def killed(self, words: list[str], text: bytes, after: float) -> bytes:
        """What a command answers until it is killed."""
        command = subprocess.Popen([self.program, *words], cwd=self.folder, stdin=subprocess.PIPE, stdout=subprocess.PIPE)
        began = time.monotonic()
        command.stdin.write(text)
        command.stdin.close()
        time.sleep(max(0.0, after - (time.monotonic() - began)))
        command.kill()
        output = command.stdout.read()
        command.stdout.close()
        command.wait()
        return output
