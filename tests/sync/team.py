"""A team of three for some weeks, who share a box: their editors write lines in each manner, stay open while others' work comes in,
and are killed half way; and projects are set back to the copy of an evening before."""
import shutil
from pathlib import Path

from stage import Answer, Tally, run
from texts import Book, Change, Copy, join
from week import Person, Week

NAMES = ("ana", "ben", "cy")
ALL = ("--emptied", "--join")


class Member(Person):
    """One of a team, with an editor that may be open: a book as it was then."""

    def __init__(self, *parts) -> None:
        super().__init__(*parts)
        self.manner = "\n"
        self.open: dict[str, Book] = {}

    def save(self, code: str, after: Book) -> None:
        """Saves a book in the manner of this one's editor."""
        beside = self.folder / ".saving"
        beside.write_bytes(join(after).replace("\n", self.manner).encode())
        beside.rename(self.path(code))

    def shown(self, place: str) -> set[str]:
        """The texts that a segment shows, in whatever manner their lines end."""
        return {text.replace("\r\n", "\n") for text in super().shown(place)}

    def try_sync(self, *flags: str) -> Answer:
        return run(self.program, self.home, ["sync", "p", "texts", *flags, "--box", "../box"])


class Team(Week):
    """Several people who work, by one chance."""

    def __init__(self, tally: Tally, program: Path, home: Path, seed: int) -> None:
        super().__init__(tally, program, home, seed)
        self.home = home / "team"
        self.people = [Member(tally, program, self.home, name, self.writing) for name in NAMES]
        self.box: dict[str, dict[int, Change]] = {}
        self.told = {"stale": 0, "half": 0, "set back": 0}
        self.home.joinpath("box").mkdir()

    def text(self) -> str:
        """Words that nobody wrote before, so that an older text in a file is one of an editor that was open."""
        self.words += 1
        return self.chance.choice([f"word {self.words}", f"text {self.words} of many"])

    def sync(self, person: Member) -> None:
        """A person syncs with the box. Where the program asks, it is said that an editor had an old text, or that a text was removed."""
        answer = person.try_sync(*ALL)
        is_asked = answer.error.startswith(b"fault 133")
        is_stale = is_asked and bool(person.open)
        if is_asked:
            self.told["stale"] += is_stale
            answer = person.try_sync(*ALL, "--stale" if is_stale else "--undone")
        # A project that was set back takes in again what its own bundle in the box has, and this is said.
        is_quiet = answer.error == b"" or b" had edits under this copy's name " in answer.error
        self.tally.check(answer.status == 0 and is_quiet, f"{person.name}: {answer}")
        for code, book in person.before_sync.items():
            was = person.open.get(code, {}) if is_stale and code in person.open else person.known.get(code, {})
            self.writing.change(person.copy, was, book)
        for name, changes in self.box.items():
            if name != person.name:
                person.copy.changes.update(changes)
        self.box[person.name] = dict(person.copy.changes)
        person.known = person.books()
        person.open = {}

    def day(self, person: Member) -> None:
        """A person's day: books are changed, now and then one is begun, and then comes a sync."""
        if self.chance.random() < 0.15:
            self.half(person)
        person.manner = self.chance.choice(["\n", "\r\n"])
        codes = sorted(person.files())
        for code in self.chance.sample(codes, min(len(codes), self.chance.randint(0, 2))):
            person.save(code, self.changed(person.book(code)))
        missing = [code for code in ("LUK", "JHN") if code not in codes]
        if person.name == "ana" and missing and self.chance.random() < 0.3:
            person.save(missing[0], self.new_book(missing[0]))
        person.before_sync = person.books()
        self.sync(person)

    def stale_day(self, person: Member) -> None:
        """An editor is open while a sync brings in the others' work, and then saves its old text with one change."""
        code = self.chance.choice(sorted(person.files()))
        old = person.book(code)
        person.before_sync = person.books()
        self.sync(person)
        place = self.chance.choice([it for it in old if ":" in it])
        saved = {**old, place: f"\\v {place.split(':')[1]} {self.text()}\n"}
        person.save(code, saved)
        person.open = {code: old}
        person.before_sync = person.books()
        self.sync(person)

    def half(self, person: Member) -> None:
        """An editor is killed half way: the sync is refused, and the file is saved again."""
        code = self.chance.choice(sorted(person.files()))
        path, before = person.path(code), (person.home / "p").read_bytes()
        whole = path.read_bytes()
        path.write_bytes(whole[: len(whole) // 3])
        answer = person.try_sync("--undone", "--join")
        is_refused = answer.error.startswith(b"fault 132") and (person.home / "p").read_bytes() == before
        self.told["half"] += is_refused
        self.tally.check(is_refused, f"{person.name}: half of {code}: {answer}")
        path.write_bytes(whole)

    def set_back(self, person: Member) -> None:
        """A project is set back to the copy of an evening before."""
        evening = person.home / "evening"
        if evening.exists():
            shutil.copy(evening, person.home / "p")
            self.told["set back"] += 1

    def end(self, what: str) -> None:
        """All have synced often enough to have everything: the same books, reports, and no text is lost."""
        for _ in range(2):
            for person in self.people:
                person.before_sync = person.books()
                self.sync(person)
        places = set().union(*(person.copy.places() for person in self.people))
        for person in self.people:
            person.look(what, places)
        exports = [{code: person.wanted(["export", "p", code]) for code in person.files()} for person in self.people]
        reports = [person.wanted(["report", "p"]) for person in self.people]
        self.tally.check(all(it == exports[0] for it in exports), f"{what}: the books differ")
        self.tally.check(all(it == reports[0] for it in reports), f"{what}: the reports differ")


def check_team(tally: Tally, program: Path, work: Path, seed: int, weeks: int) -> None:
    told = {"stale": 0, "half": 0, "set back": 0}
    for number in range(weeks):
        team = Team(tally, program, work / f"team{number}", seed * 1000 + number)
        ana = team.people[0]
        for code in ("MAT", "MRK"):
            ana.save(code, team.new_book(code))
        for person in team.people:
            person.before_sync = person.books()
            team.sync(person)
        for _ in range(10):
            for person in team.chance.sample(team.people, len(team.people)):
                if team.chance.random() < 0.1:
                    team.set_back(person)
                if team.chance.random() < 0.3 and person.files():
                    team.stale_day(person)
                else:
                    team.day(person)
                if team.chance.random() < 0.3:
                    shutil.copy(person.home / "p", person.home / "evening")
        team.end(f"team {number}")
        told = {kind: count + team.told[kind] for kind, count in told.items()}
    print("sync: a team's " + ", ".join(f"{count} {kind}" for kind, count in told.items()))
    # In a week or two not everything happens.
    tally.check(weeks < 4 or all(told.values()), f"a team's weeks had {told}")
