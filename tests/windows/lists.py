"""Random lists of commands on both programs, which have to answer alike and to leave the same projects and folders."""
import random
import shlex
import shutil
from concurrent.futures import ThreadPoolExecutor
from pathlib import Path

from both import Both
from reporting import Tally

COPIES = ("ana", "ben", "cy")
BOOKS = ("MAT", "MRK", "LUK")
STEPS = 8
WORKERS = 4


class List:
    """A list of commands that grows by what its chances say."""

    def __init__(self, both: Both, seed: int) -> None:
        self.both = both
        self.chance = random.Random(seed)
        self.told: list[str] = []

    def text(self, verse: int) -> str:
        words = ["In the beginning", "Und es war", "שלום", "𐤀 𐤁", "á ê ñ", "So\\f + \\ft a note\\f*", "", "x" * self.chance.randrange(90)]
        return f"\\v {verse} {self.chance.choice(words)}"

    def book(self, code: str) -> bytes:
        end = self.chance.choice(["\n", "\n", "\r\n"])
        lines = [f"\\id {code}", "\\c 1", "\\p"] + [self.text(verse) for verse in range(1, self.chance.randrange(2, 6))]
        if self.chance.random() < 0.1:
            lines.insert(0, "")
        return (end.join(lines) + end).encode()

    def play(self) -> str:
        """Plays it; answers what differed at first, or nothing."""
        for step in [self.begin] + [self.step] * STEPS:
            difference = step()
            if difference:
                return "\n    ".join([*self.told, difference])
        return ""

    def run(self, *words: str, given: bytes = b"") -> str:
        self.told.append(shlex.join(words) + (f" < {given!r}" if given else ""))
        return self.both.difference(words, given)

    def begin(self) -> str:
        """Some copies, of which the first has a book, and folders of different names."""
        self.both.make_folder("ana texts")
        self.both.make_folder("bücher")
        self.both.make_folder("box")
        for copy in COPIES:
            difference = self.run("init", f"{copy}.project", copy)
            if difference:
                return difference
        self.put("matthew.usfm", self.book("MAT"))
        return self.run("import", "ana.project", "matthew.usfm")

    def put(self, name: str, content: bytes) -> None:
        self.told.append(f"{name} = {content!r}")
        self.both.write(name, content)

    def step(self) -> str:
        copy = self.chance.choice(COPIES)
        project = f"{copy}.project"
        folder = self.chance.choice(["ana texts", "bücher"])
        book = self.chance.choice(BOOKS)
        place = f"{book} {self.chance.choice(['0', '1', '1:1', '1:2', '1:3', '2:1'])}"
        kind = self.chance.choices(range(15), weights=(5, 3, 4, 5, 2, 2, 2, 2, 2, 2, 1, 2, 1, 2, 2))[0]
        if kind == 0:
            return self.run("edit", project, place, given=(self.text(self.chance.randrange(1, 4)) + "\n").encode())
        if kind == 1:
            self.put(f"{folder}/{self.chance.choice(['41MAT.SFM', 'MRK.usfm', 'luke Ärger.sfm'])}", self.book(book))
            return ""
        if kind == 2:
            words = self.chance.choice([[], ["--box", "box"], ["--try"], ["--undone", "--emptied"], ["--settle", book]])
            return self.run("sync", project, folder, *words)
        if kind == 3:
            other = self.chance.choice(COPIES)
            self.both.output_to("bundle", ["send", f"{other}.project"])
            return self.run("receive", project, "bundle")
        if kind == 4:
            return self.run("export", project, "--into", folder, *self.chance.choice([[], [book]]))
        if kind == 5:
            self.put("given.usfm", self.book(book))
            return self.run("import", project, "given.usfm", "--explain")
        if kind == 6:
            return self.run("settle", project, given=self.chance.choice([b"1\n2\n1\n", b"e\n\\v 1 Own\n.\n", b"s\nq\n", b""]))
        if kind == 7:
            return self.run("status", project, folder, "--explain")
        if kind == 8:
            return self.run(self.chance.choice(["report", "progress", "page", "summary", "send", "thin"]), project)
        if kind == 9:
            return self.run(self.chance.choice(["check", "words", "export", "progress"]), project, book)
        if kind == 10:
            return self.run("find", project, book, "the", "--text")
        if kind == 11:
            return self.run("shown", project, place, "--explain")
        if kind == 12:
            return self.damage(project)
        if kind == 13:
            return self.merge(book)
        return self.look_back(project, place, book)

    def merge(self, book: str) -> str:
        """Three versions of a book's file, of which the second is replaced."""
        names = ["base.usfm", "our ö.usfm", "theirs.usfm"]
        for name in names:
            self.put(name, self.book(book))
        return self.run("merge", *names, *self.chance.choice([[], ["--stdout"]]))

    def look_back(self, project: str, place: str, book: str) -> str:
        """What was, what changed, what is missing, and having it back."""
        since = ["--since", f"{self.chance.choice(COPIES)}.project"]
        ways = [["history", project, place], ["changes", project, *since], ["missing", project, book], ["restore", project, *since, "--all"]]
        return self.run(*self.chance.choice(ways))

    def damage(self, project: str) -> str:
        """A file that is cut, or gone."""
        name = self.chance.choice(["box/ana.bundle", "bücher/.usfm_team/base", "ana texts/41MAT.SFM", "matthew.usfm"])
        self.told.append(f"{name} is cut")
        self.both.cut(name, self.chance.random())
        return self.run("sync", project, "bücher", "--box", "box", "--explain")


def check_lists(tally: Tally, linux: Path, windows: Path, work: Path, seeds: range) -> None:
    def play(seed: int) -> None:
        home = work / f"list{seed}"
        difference = List(Both(linux, windows, home), seed).play()
        if difference:
            print(f"windows: played once more: the list of seed {seed} differs: {difference[-300:]}")
            shutil.rmtree(home)
            difference = List(Both(linux, windows, home), seed).play()
        tally.check(not difference, f"the list of seed {seed} differs:\n    {difference}")
        if not difference:
            shutil.rmtree(home)

    with ThreadPoolExecutor(WORKERS) as pool:
        list(pool.map(play, seeds))
