"""Three people for five days, each with a project, a folder of books and a box of their own, between which a carrier goes.

What has to be is said by a second implementation that knows only files and texts (tests/sync/texts.py): a copy that took in a bundle
has every change that the bundle's sender had by then, by the digest of the bundle's bytes; so a carrier may bring what it likes, old
bundles, parts of bundles and none at all, and it is still known what each copy owes.
"""
import hashlib
import random
import re
from dataclasses import dataclass, field
from pathlib import Path
from typing import Callable, Optional

from stage import Answer, Tally, run
from texts import Book, Change, Copy, Writing, cut, join

NAMES = ("ana", "ben", "cy")
DAYS = 5
# Chapters and verses of the books.
BOOKS = {"MAT": (6, 4), "MRK": (6, 4)}
# Words of a verse, and of the first one of a chapter: so a bundle is longer than what a carrier moves at once.
FEW, MANY = 4, 60
CONFLICT = re.compile(rb"conflict (\w+ [\d:]+) \d+\n")
TEXT = re.compile(rb"text \d+ [a-z0-9-]+ (\d+)\n")
# What is said of another copy's bundle that came in part, or that has parts of two.
DAMAGED = re.compile(r"skipped \S*/(\w+\.bundle)(?: fault (?:60|61|72)|: it is not a bundle, or only a part of one)\n")
# How a sync ends whose box is gone, cannot be read, or cannot be written.
BROKEN = re.compile(rb"fault 1[23]0\nin [^\n]*/box(/\w+\.bundle)?\n\Z")


@dataclass
class Said:
    """What the program said on standard error, and when."""

    when: str
    answer: Answer

    def lines(self) -> list[str]:
        text = self.answer.error.decode(errors="backslashreplace").splitlines()
        return [f"{self.when}: [{self.answer.status}] {line}" for line in text]


class Carrier:
    """What carries a team's boxes. A person's box is a folder of their own, which `bring` and `fetch` bring up to date; where it
    lies on what all can reach, both have nothing to do."""

    name = ""
    # The commands that it needs, and the Debian packages that have them.
    needs: dict[str, str] = {}
    # Whether somebody who is away has the box all the same.
    is_at_hand = True

    def __init__(self, home: Path) -> None:
        self.home = home
        self.notes: list[str] = []

    def start(self) -> None:
        """Begins all that runs; raises an OSError where it cannot run here."""

    def box(self, name: str) -> Path:
        box = self.home / name / "box"
        box.mkdir(exist_ok=True)
        return box

    def fetch(self, name: str) -> None:
        """Brings a person what the others left."""

    def bring(self, name: str) -> None:
        """Takes what a person's sync left to where the others find it."""

    def leave(self, name: str) -> None:
        """A person goes where nothing is carried."""

    def come_back(self, name: str) -> None:
        """A person is where the others are again."""

    def break_off(self, name: str, sync: Callable[[], Answer]) -> Answer:
        """A person's sync and what carries it, and the carrier is killed half way."""
        raise NotImplementedError

    def break_fetch(self, name: str) -> None:
        """What brings a person the others' bundles is killed half way."""

    def mend(self, name: str) -> None:
        """What a person does who sees that the carrier was killed."""

    def stop(self) -> None:
        """Ends all that runs."""


@dataclass
class Person:
    """One of the team, with a second implementation's knowledge of what the copy has."""

    name: str
    home: Path
    copy: Copy = field(default_factory=Copy)
    # Each book as its file was when the last sync had ended.
    known: dict[str, Book] = field(default_factory=dict)
    is_away: bool = False

    def files(self) -> dict[str, Path]:
        return {it.read_text()[4:7]: it for it in sorted(self.home.joinpath("texts").iterdir()) if it.is_file()}

    def books(self) -> dict[str, Book]:
        return {code: cut(path.read_text()) for code, path in self.files().items()}

    def save(self, code: str, book: Book) -> None:
        path = self.files().get(code) or self.home / "texts" / f"{code}.usfm"
        beside = self.home / "saving"
        beside.write_text(join(book))
        beside.rename(path)


class Team:
    """Three people and what carries their boxes."""

    def __init__(self, tally: Tally, program: Path, home: Path, carrier: Carrier, seed: int) -> None:
        self.tally, self.program, self.carrier = tally, program, carrier
        self.chance = random.Random(seed)
        self.writing = Writing()
        self.people = [Person(name, home / name) for name in NAMES]
        # What a bundle with this digest has.
        self.bundles: dict[str, dict[int, Change]] = {}
        self.said: list[Said] = []
        # How each sync ended whose carrier was killed.
        self.breaks: list[str] = []
        self.words = 0
        self.day = 0
        for person in self.people:
            person.home.joinpath("texts").mkdir(parents=True, exist_ok=True)
            self.wanted(person, ["init", "p", person.name])

    def check(self, is_right: bool, what: str) -> None:
        self.tally.check(is_right, f"{self.carrier.name}, day {self.day}: {what}")

    # ---- the program

    def wanted(self, person: Person, words: list[str], given: bytes = b"") -> bytes:
        answer = run(self.program, person.home, words, given)
        self.check(answer.status == 0 and answer.error == b"", f"{person.name}: {words}: {answer}")
        return answer.output

    def note(self, person: Person) -> None:
        """Writes down what was changed in a person's files."""
        for code, book in person.books().items():
            self.writing.change(person.copy, person.known.get(code, {}), book)

    def try_sync(self, person: Person) -> Answer:
        """The one command of a day."""
        words = ["sync", "p", "texts"]
        if not person.is_away or self.carrier.is_at_hand:
            words += ["--box", str(self.carrier.box(person.name))]
        answer = run(self.program, person.home, words)
        if answer.error:
            self.said.append(Said(f"day {self.day}, {person.name}", answer))
        return answer

    def arriving(self, person: Person) -> dict[int, Change]:
        """What the bundles have that lie in a person's box."""
        arrived: dict[int, Change] = {}
        if person.is_away and not self.carrier.is_at_hand:
            return arrived
        for path in sorted(self.carrier.box(person.name).glob("*.bundle")):
            arrived.update(self.bundles.get(digest_of(path), {}))
        return arrived

    def took(self, person: Person, arrived: dict[int, Change]) -> None:
        """A copy has taken this in, and a bundle that it leaves has all that it has."""
        person.copy.changes.update(arrived)
        self.bundles[digest(self.wanted(person, ["send", "--sealed", "p"]))] = dict(person.copy.changes)
        person.known = person.books()

    def sync(self, person: Person, is_fetched: bool = False) -> bytes:
        """A day's sync, with the carrier's going before and after it."""
        if not person.is_away and not is_fetched:
            self.carrier.fetch(person.name)
        self.note(person)
        arrived, damaged = self.arriving(person), self.damaged(person)
        answer = self.try_sync(person)
        self.went_well(person, answer, damaged)
        self.took(person, arrived)
        if not person.is_away:
            self.carrier.bring(person.name)
        return answer.output

    def damaged(self, person: Person) -> set[str]:
        """The bundles in a person's box that are none which anybody left."""
        if person.is_away and not self.carrier.is_at_hand:
            return set()
        return {it.name for it in self.carrier.box(person.name).glob("*.bundle") if digest_of(it) not in self.bundles}

    def went_well(self, person: Person, answer: Answer, damaged: set[str]) -> None:
        """A sync is done, and nothing is said but which bundles are damaged: each of these, and no others."""
        said = DAMAGED.findall(answer.error.decode())
        is_said = sorted(said) == sorted(damaged) and len(said) == answer.error.count(b"\n")
        self.check(answer.status == 0 and is_said, f"{person.name}, with {damaged} damaged: {answer}")

    def broken_sync(self, person: Person) -> None:
        """A sync while the carrier is killed; the others sync; and then the same line again, once the carrier goes."""
        self.carrier.fetch(person.name)
        self.note(person)
        arrived, before = self.arriving(person), self.wanted(person, ["send", "p"])
        first = self.carrier.break_off(person.name, lambda: self.try_sync(person))
        self.check(first.status == 0 or bool(BROKEN.search(first.error)), f"{person.name}, whose carrier is killed: {first}")
        # Whether it was refused before the project had what came in, or after.
        is_taken = self.wanted(person, ["send", "p"]) != before
        self.took(person, arrived if is_taken else {})
        self.breaks.append(f"day {self.day}, {person.name}: status {first.status}, the project {'has' if is_taken else 'has not'} what came in")
        for other in self.people:
            if other is not person and not other.is_away:
                self.carrier.break_fetch(other.name)
                self.sync(other, is_fetched=True)
                self.sync(other)
        self.carrier.mend(person.name)
        self.carrier.fetch(person.name)
        arrived, damaged = self.arriving(person), self.damaged(person)
        self.went_well(person, self.try_sync(person), damaged)
        self.took(person, arrived)
        self.carrier.bring(person.name)

    def settle(self, person: Person) -> None:
        """A person settles what is in conflict, each by a text of their own, through a pipe."""
        report = self.wanted(person, ["report", "p"])
        places = [it.decode() for it in CONFLICT.findall(report)]
        typed = ""
        for place in places:
            self.words += 1
            now = f"\\v {place.split(':')[1]} settled {self.words} by {person.name}\n"
            typed += f"e\n{now}.\n"
            standing = person.copy.standing(place)
            made = Change(len(self.writing.made), place, "", now, frozenset(it.number for it in standing))
            self.writing.made.append(made)
            person.copy.changes[made.number] = made
        if places:
            answer = self.wanted(person, ["settle", "p"], typed.encode())
            self.check(f"settled {len(places)}\n".encode() in answer, f"{person.name} settles {places}: {answer[-300:]!r}")

    # ---- the days

    def new_book(self, code: str) -> Book:
        chapters, verses = BOOKS[code]
        lines = [f"\\id {code} a book\n"]
        for chapter in range(1, chapters + 1):
            lines.append(f"\\c {chapter}\n")
            lines += [f"\\v {verse} {self.text('ana', FEW if verse > 1 else MANY)}\n" for verse in range(1, verses + 1)]
        return cut("".join(lines))

    def text(self, name: str, count: int = FEW) -> str:
        """Words that nobody wrote before, and that do not become shorter by packing."""
        self.words += 1
        return f"{name} {self.words} " + " ".join(f"{self.chance.getrandbits(64):x}" for _ in range(count))

    def edit(self, person: Person) -> None:
        """Some verses of both books, and one that everybody changes on that day."""
        for code, book in person.books().items():
            verses = [it for it in book if ":" in it]
            for place in [*self.chance.sample(verses, 3), f"{code} {self.day + 1}:2"]:
                book[place] = f"\\v {place.split(':')[1]} {self.text(person.name)}\n"
            person.save(code, book)

    def begin(self) -> None:
        """Ana brings two books, and the others get them."""
        ana = self.people[0]
        for code in BOOKS:
            ana.save(code, self.new_book(code))
        for person in self.people:
            self.sync(person)
            self.check(person.books().keys() == BOOKS.keys(), f"{person.name} has no books")

    def days(self) -> None:
        """Five days. Cy is away from the second to the fourth; on the third the carrier is killed half way for Ben, on the fourth for
        Ana; on the second and on the fourth somebody settles."""
        ana, ben, cy = self.people
        for self.day in range(1, DAYS + 1):
            if self.day == 2:
                cy.is_away = True
                self.carrier.leave(cy.name)
            if self.day == 5:
                self.carrier.come_back(cy.name)
                cy.is_away = False
            order = self.chance.sample(self.people, len(self.people))
            for person in order:
                self.edit(person)
            for person in order:
                is_broken = (self.day, person) in ((3, ben), (4, ana))
                (self.broken_sync if is_broken else self.sync)(person)
            if self.day in (2, 4):
                settler = self.chance.choice([ana, ben])
                self.settle(settler)
                self.sync(settler)

    def end(self) -> None:
        """All have synced often enough to have everything: the same books, files and reports, and no text is lost."""
        for _ in range(2):
            for person in self.people:
                self.sync(person)
        for person in self.people:
            self.look(person)
            told = [it for it in self.sync(person).split(b"\n") if it.startswith((b"added", b"wrote", b"left"))]
            self.check(told == [], f"{person.name}: a sync of nothing: {told}")
        whole = [self.state(person) for person in self.people]
        for person, it in zip(self.people[1:], whole[1:]):
            for what in whole[0]:
                self.check(it[what] == whole[0][what], f"{person.name} and ana differ: {what}")

    def state(self, person: Person) -> dict[str, bytes]:
        state = {code: self.wanted(person, ["export", "p", code]) for code in BOOKS}
        for code, path in person.files().items():
            self.check(path.read_bytes() == state[code], f"{person.name}: the file of {code} is not its export")
        return {**state, "the report": self.wanted(person, ["report", "p"])}

    def look(self, person: Person) -> None:
        """Nothing that is to be shown is absent, and nothing is there that nobody wrote."""
        shown = {place: {text} for code in BOOKS for place, text in cut(self.wanted(person, ["export", "p", code]).decode()).items()}
        shown.update(texts_of(self.wanted(person, ["report", "p"])))
        written: dict[str, set[str]] = {}
        for it in self.writing.made:
            written.setdefault(it.place, set()).add(it.now)
        changes: dict[str, Copy] = {}
        for it in person.copy.changes.values():
            changes.setdefault(it.place, Copy()).changes[it.number] = it
        for place, copy in changes.items():
            owed = copy.owed(place)
            self.check(owed <= shown[place], f"{person.name} has lost {owed - shown[place]} of {place}")
            self.check(shown[place] <= written[place], f"{person.name} shows {shown[place]} of {place}")


def texts_of(report: bytes) -> dict[str, set[str]]:
    """The texts of each segment in a report."""
    found: dict[str, set[str]] = {}
    place, at = "", 0
    while at < len(report):
        conflict, text = CONFLICT.match(report, at), TEXT.match(report, at)
        if conflict:
            place, at = conflict[1].decode(), conflict.end()
        elif text:
            end = text.end() + int(text[1])
            found.setdefault(place, set()).add(report[text.end() : end].decode())
            at = end + 1
        else:
            raise ValueError(f"a line of a report: {report[at:at + 80]!r}")
    return found


def digest(data: bytes) -> str:
    return hashlib.sha256(data).hexdigest()


def digest_of(path: Path) -> Optional[str]:
    """The digest of a file, if it can be read."""
    try:
        return digest(path.read_bytes())
    except OSError:
        return None
