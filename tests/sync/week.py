"""Two people, each with a project and a folder, and what they do."""
import errno
import os
import random
import re
import signal
import subprocess
import time
from pathlib import Path
from typing import BinaryIO, Optional

from stage import SECONDS, Tally, run
from texts import Book, Copy, Writing, cut, in_order, join

NAMES = ("ana", "ben")
# Files as people name them: each book has its own manner.
FILES = {"MAT": "41MAT{}.SFM", "MRK": "MRK.usfm", "LUK": "luke of {}.Usfm", "JHN": "44JHN{}.sfm"}
# When a sync was killed.
BEFORE, AFTER, TOO_LATE = "before the project's change", "after it", "when it had ended"
MEANT = ("--emptied", "--undone", "--join")
SHOWN = re.compile(rb"op \d+ [a-z0-9-]+ (\d+)\n")


class Person:
    def __init__(self, tally: Tally, program: Path, home: Path, name: str, writing: Writing) -> None:
        self.tally, self.program, self.name, self.writing = tally, program, name, writing
        self.home = home / name
        self.folder = self.home / "texts"
        self.folder.mkdir(parents=True)
        self.copy = Copy()
        # Each book as its file was when the last sync had ended.
        self.known: dict[str, Book] = {}
        self.wanted(["init", "p", name])

    def wanted(self, words: list[str]) -> bytes:
        answer = run(self.program, self.home, words)
        self.tally.check(answer.status == 0 and answer.error == b"", f"{self.name}: {words}: {answer}")
        return answer.output

    # ---- the files

    def files(self) -> dict[str, Path]:
        """The file of each book."""
        found = {}
        for path in sorted(self.folder.iterdir()):
            if path.is_file() and not path.name.startswith("."):
                found[path.read_text()[4:7]] = path
        return found

    def path(self, code: str) -> Path:
        return self.files().get(code) or self.folder / FILES[code].format(self.name)

    def book(self, code: str) -> Book:
        path = self.path(code)
        return cut(path.read_text()) if path.exists() else {}

    def save(self, code: str, after: Book) -> None:
        """Saves a book as an editor does, through another file."""
        beside = self.folder / ".saving"
        beside.write_text(join(after))
        beside.rename(self.path(code))

    def books(self) -> dict[str, Book]:
        return {code: self.book(code) for code in self.files()}

    def note(self) -> None:
        """Writes down what was changed in the files."""
        for code, book in self.books().items():
            self.writing.change(self.copy, self.known.get(code, {}), book)
        self.known = self.books()

    # ---- the program

    def sync(self, *bundles: Path) -> bytes:
        self.note()
        # Who deletes verses, or writes an older text again, means it.
        told = self.wanted(["sync", "p", "texts", *MEANT, *map(str, bundles)])
        self.known = self.books()
        return told

    def shown(self, place: str) -> set[str]:
        """The texts that a segment shows."""
        rest, texts = self.wanted(["shown", "p", place]), set()
        while rest:
            line = SHOWN.match(rest)
            end = line.end() + int(line[1])
            texts.add(rest[line.end() : end].decode())
            rest = rest[end + 1 :]
        return texts

    def send(self, to: "Person", whole: bool) -> Path:
        """Writes a bundle for the other: all, or what the other lacks."""
        bundle = self.home / f"for {to.name}"
        if whole:
            bundle.write_bytes(self.wanted(["send", "p"]))
        else:
            summary = to.home / "summary"
            summary.write_bytes(to.wanted(["summary", "p"]))
            bundle.write_bytes(self.wanted(["delta", "p", str(summary)]))
        return bundle

    def look(self, what: str, places: set[str]) -> None:
        """Nothing that is to be shown is absent, and nothing is there that nobody wrote."""
        for place in sorted(places):
            shown = self.shown(place)
            lacked = self.copy.owed(place) - shown - {""}
            self.tally.check(not lacked, f"{what}: {self.name} has lost {lacked} of {place}, and shows {shown}")
            foreign = shown - self.writing.texts(place) - {""}
            self.tally.check(not foreign, f"{what}: {self.name} shows {foreign} of {place}, which nobody wrote")


class Week:
    """Two people who work, by one chance."""

    def __init__(self, tally: Tally, program: Path, home: Path, seed: int) -> None:
        self.tally, self.chance = tally, random.Random(seed)
        self.writing = Writing()
        self.people = [Person(tally, program, home, name, self.writing) for name in NAMES]
        self.words = 0

    def text(self) -> str:
        """Words that nobody else writes; but now and then both write the same."""
        self.words += 1
        return self.chance.choice(["Amen.", "And it came to pass", f"word {self.words}", f"text {self.words} of many"])

    def new_book(self, code: str) -> Book:
        lines = [f"\\id {code} {self.text()}\n"]
        for chapter in range(1, self.chance.randint(2, 4)):
            lines.append(f"\\c {chapter}\n")
            lines += [f"\\v {verse} {self.text()}\n" for verse in range(1, self.chance.randint(3, 9))]
        return cut("".join(lines))

    def changed(self, book: Book) -> Book:
        """The book with some changes of one to four of its segments."""
        book = dict(book)
        for _ in range(self.chance.randint(1, 4)):
            verses = [place for place in book if ":" in place]
            what = self.chance.random()
            if what < 0.15 and len(verses) > 4:
                del book[self.chance.choice(verses)]
            elif what < 0.35:
                chapter = self.chance.choice([place for place in book if ":" not in place and not place.endswith(" 0")])
                verse = self.chance.randint(1, 14)
                book[f"{chapter}:{verse}"] = f"\\v {verse} {self.text()}\n"
            elif what < 0.4:
                head = next(iter(book))
                book[head] = f"\\id {head[:3]} {self.text()}\n"
            elif verses:
                place = self.chance.choice(verses)
                book[place] = f"\\v {place.split(':')[1]} {self.text()}\n"
        return in_order(book)

    def edit(self, person: Person) -> None:
        """A person changes some books, and now and then begins one."""
        codes = sorted(person.files())
        for code in self.chance.sample(codes, min(len(codes), self.chance.randint(1, 2))):
            person.save(code, self.changed(person.book(code)))
        missing = [code for code in FILES if code not in codes]
        if missing and self.chance.random() < 0.2:
            code = self.chance.choice(missing)
            person.save(code, self.new_book(code))

    def begin(self) -> None:
        """Ana has two books, and Ben gets them."""
        ana, ben = self.people
        for code in ("MAT", "MRK"):
            ana.save(code, self.new_book(code))
        ana.sync()
        self.give(ana, ben, True)
        self.tally.check(ben.files().keys() == {"MAT", "MRK"}, "the books have no file of Ben's")

    def give(self, sender: Person, taker: Person, whole: bool) -> None:
        bundle = sender.send(taker, whole)
        taker.sync(bundle)
        taker.copy.take(sender.copy)

    def exchange(self) -> None:
        """Both sync and give each other what they have, in either order."""
        first, second = self.chance.sample(self.people, 2)
        first.sync()
        second.sync()
        self.give(first, second, self.chance.random() < 0.5)
        self.give(second, first, self.chance.random() < 0.5)

    def look(self, what: str) -> None:
        places = set().union(*(person.copy.places() for person in self.people))
        for person in self.people:
            person.look(what, places)
        ana, ben = ({code: path.read_bytes() for code, path in person.files().items()} for person in self.people)
        self.tally.check(ana == ben, f"{what}: the books differ")
        reports = [person.wanted(["report", "p"]) for person in self.people]
        self.tally.check(reports[0] == reports[1], f"{what}: the reports differ")


def check_weeks(tally: Tally, program: Path, work: Path, seed: int, weeks: int) -> None:
    for number in range(weeks):
        week = Week(tally, program, work / f"week{number}", seed * 1000 + number)
        week.begin()
        for day in range(5):
            for person in week.people:
                if week.chance.random() < 0.9:
                    week.edit(person)
                if week.chance.random() < 0.4:
                    person.sync()
                    week.edit(person)
            week.exchange()
        week.look(f"week {number}")
        for person in week.people:
            # Nothing was changed since, so nothing comes in and no file is written.
            told = [line for line in person.sync().split(b"\n") if line and not line.startswith(b"conflict")]
            tally.check(told == [], f"week {number}: a sync of nothing: {told}")


def check_saves(tally: Tally, program: Path, work: Path, seed: int) -> None:
    """An editor that saves while a sync runs, which waits for a bundle by then: its text comes in, and stays in the file."""
    week = Week(tally, program, work / "saves", seed)
    week.begin()
    ana, ben = week.people
    pipe = ana.home / "pipe"
    os.mkfifo(pipe)
    for number in range(30):
        for person in week.people:
            week.edit(person)
            person.sync()
        bundle = ben.send(ana, False).read_bytes()
        code = week.chance.choice(sorted(ana.files()))
        saved = week.changed(ana.book(code))
        command = subprocess.Popen([program, "sync", "p", "texts", *MEANT, pipe], cwd=ana.home, stdout=subprocess.PIPE)
        stream = to_reader(command, pipe)
        if stream is None:
            command.kill()
            tally.check(False, f"save {number}: the sync did not read the bundle, and has status {command.wait()}")
            return
        with stream:
            ana.save(code, saved)
            ana.note()
            stream.write(bundle)
        told, _ = command.communicate(timeout=SECONDS)
        is_right = command.returncode == 0 and b"left " not in told
        tally.check(is_right, f"save {number}: {told}, and the editor's text is gone")
        ana.known = ana.books()
        ana.copy.take(ben.copy)
        week.exchange()
    week.look("saves")


def to_reader(command: subprocess.Popen, pipe: Path) -> Optional[BinaryIO]:
    """What is written to a pipe, once a command waits for it; nothing where the command ends before, or does not come to it."""
    latest = time.monotonic() + SECONDS
    while command.poll() is None and time.monotonic() < latest:
        try:
            # Else it would wait for a reader for ever.
            handle = os.open(pipe, os.O_WRONLY | os.O_NONBLOCK)
        except OSError as error:
            if error.errno != errno.ENXIO:
                raise
            time.sleep(0.001)
        else:
            os.set_blocking(handle, True)
            return open(handle, "wb")
    return None


def seconds(what) -> float:
    began = time.monotonic()
    what()
    return time.monotonic() - began


def check_kills(tally: Tally, program: Path, work: Path, seed: int) -> None:
    """Syncs that are killed: the next one goes on, and nothing is lost."""
    week = Week(tally, program, work / "kills", seed)
    week.begin()
    longest = seconds(week.people[0].sync)
    moments: list[str] = []
    for _ in range(60):
        for person in week.people:
            codes = sorted(person.files())
            for code in week.chance.sample(codes, 2):
                person.save(code, week.changed(person.book(code)))
        first, second = week.chance.sample(week.people, 2)
        second.sync()
        bundle = second.send(first, False)
        first.note()
        moments.append(kill(first, bundle, week.chance.uniform(0, longest)))
        # Some are to come before the change and some after it, however busy the computer is.
        longest *= 1.25 if moments[-1] == BEFORE else 0.8
        first.known = first.books()
        first.sync(bundle)
        first.copy.take(second.copy)
        beside = {path.name for path in (first.folder / ".usfm_team").iterdir()} - {"base", "base.1", "base.2", "base.3", "days", "names"}
        tally.check(not beside, f"after a kill and a sync there is {beside}")
    kinds = {kind: moments.count(kind) for kind in (BEFORE, AFTER, TOO_LATE)}
    told = "killed " + ", ".join(f"{count} {kind}" for kind, count in kinds.items())
    tally.check(kinds[BEFORE] > 0 and kinds[AFTER] + kinds[TOO_LATE] > 0, told)
    print(f"sync: {told}")
    week.exchange()
    week.look("kills")


def kill(person: Person, bundle: Path, after: float) -> str:
    """Kills a sync after this many seconds, and says when that was, by the change of the project."""
    project = person.home / "p"
    before = project.read_bytes()
    command = subprocess.Popen([person.program, "sync", "p", "texts", *MEANT, bundle], cwd=person.home, stdout=subprocess.DEVNULL)
    time.sleep(after)
    command.kill()
    status = command.wait()
    person.tally.check(status in (0, -signal.SIGKILL), f"a sync that is killed has status {status}")
    if status == 0:
        return TOO_LATE
    return BEFORE if project.read_bytes() == before else AFTER
