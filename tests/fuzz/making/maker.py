"""Makes plays from seeds."""
from random import Random

from model.bundles import summary_of, write_summary
from model.faults import Fault
from model.operations import export, replaced_in
from model.program import LONGEST, Zeros
from model.references import write_ref

from .answering import Answering
from .damage import damaged
from .forging import Forging
from .looking_back import LookingBack
from .plays import Play, Wanted
from .steps import BOOKS, NAMES
from .stylesheets import make_sheet
from .syncing import Syncing
from .texts import WORDS, make_book

WRONG_BOOKS = ["mat", "MA", "MATT", "", "M\u00e9"]
WRONG_REFS = ["MAT 05", "mat 5", "MAT", "MAT 1000", "MAT 1:3A", "MAT  1", "MAT 1:", "MA", "MAT 1:03", "MAT-1"]
WRONG_IDS = ["03:ana", "0:ana", "1:Ana", "1000000000000001:ana", "ana:1", "1", "1:", ":ana", ""]
WRONG_NAMES = ["Ana", "", "a b", "\u00e4", "a" * 33, "ana_"]
# Lines that have too many words, too few, or no subcommand.
WRONG_LINES = ["", "unfold MAT", "fold", "send", "send p q", "init p", "check p MAT s t", "find p", "edit p"]
WRONG_LINES += ["edit-over p", "export p mat MAT", "fold mat LUK", "sync p", "export p --into", "sync p t --into t"]
WRONG_LINES += ["edit-over p --text-of 1:ana", "edit p 0 --text-of 1:ana"]
NEEDLES = WORDS + ["a", "n", "a ", "n", " ", "\n", "", "", "", "|", "\\", "1", "-", "\u0301"]


def make_play(seed: int) -> tuple[Play, list[Wanted]]:
    """The play of a seed, and what has to come of it."""
    maker = Maker(Random(seed))
    maker.make()
    return maker.play, maker.wanted


class Maker(Forging, Syncing, LookingBack, Answering):
    """Makes a play."""

    def make(self) -> None:
        """Makes the whole play."""
        for name in self.rng.sample(NAMES, self.rng.choice([1, 2, 2, 2, 3])):
            self.begin(name)
        if self.rng.random() < 0.05 and len(self.projects) > 1:
            self.begin_with_used_name()
        length = self.rng.randint(10, 25)
        for book in self.rng.sample(BOOKS, self.rng.choice([1, 1, 2])):
            self.begin_book(book)
        if self.rng.random() < 0.9:
            self.share()
        while len(self.play) < length:
            self.rng.choices(ACTIONS, WEIGHTS)[0](self)

    def begin_book(self, book: str) -> None:
        """A new book in the first project."""
        text = make_book(self.rng, book, self.rng.choice(self.sizes))
        self.step("import", self.projects[0], "book", book=text)

    def share(self) -> None:
        """What the first project holds goes to all others."""
        sent = self.step("send", self.projects[0]).output
        self.bundles.append(sent)
        for project in self.projects[1:]:
            self.step("receive", project, "bundle", bundle=sent)

    def begin_with_used_name(self) -> None:
        """A project under a name that another has."""
        self.begin(self.name(self.projects[0]))

    def thin(self) -> None:
        """Leaves texts out, and perhaps looks at what this must not change."""
        project = self.any_project()
        self.step("thin", project)
        if self.rng.random() < 0.4:
            self.rng.choice([self.export, self.report, self.show, self.lacking_delta, self.rename])()

    def show(self) -> None:
        project = self.any_project()
        self.step("shown", project, write_ref(*self.any_segment(project)))

    def exchange(self) -> None:
        """One project's bundle at another; now and then it is cut on its way, or is an old one."""
        sent = self.step("send", self.any_project()).output
        self.bundles.append(sent)
        self.receive(sent)

    def receive_several(self) -> None:
        """Bundles that come together, all or none. One may be cut, or not be there."""
        names = ["one", "other", "third"][: self.rng.choice([2, 2, 3])]
        bundles = {name: self.rng.choice(self.bundles) for name in names if self.bundles}
        if bundles and self.rng.random() < 0.3:
            name = self.rng.choice(sorted(bundles))
            bundles[name] = damaged(self.rng, bundles[name])
        words = names if self.rng.random() < 0.9 else [*names, "missing"]
        self.step("receive", self.any_project(), *words, **bundles)

    def receive_old(self) -> None:
        if self.bundles:
            self.receive(self.rng.choice(self.bundles))

    def exchange_delta(self) -> None:
        """What one project lacks of another, now and then by an old summary."""
        receiver = self.any_project()
        summary = self.step("summary", receiver).output
        self.summaries.append(summary)
        if self.rng.random() < 0.3:
            summary = self.rng.choice(self.summaries)
        delta = self.step("delta", self.any_project(), "summary", summary=summary).output
        self.bundles.append(delta)
        if self.rng.random() < 0.3:
            receiver = self.any_project()
        self.step("receive", receiver, "bundle", bundle=delta)
        if self.rng.random() < 0.5:
            self.step("report", receiver)

    def lacking_delta(self) -> None:
        """What a project has beside all but a few of its own operations, of which some may be replaced."""
        project = self.any_project()
        held = self.held(project)
        lacked = self.rng.sample(sorted(held), min(len(held), self.rng.choice([0, 1, 1, 2])))
        replaced = sorted(replaced_in(held))
        lacked += self.rng.sample(replaced, min(len(replaced), 1))
        summary = write_summary(summary_of({id: it for id, it in held.items() if id not in lacked}))
        self.bundles.append(self.step("delta", project, "summary", summary=summary).output)

    def export(self) -> None:
        project = self.any_project()
        self.step("export", project, self.any_book(project))

    def report(self) -> None:
        self.step("report", self.any_project())

    def status(self) -> None:
        """How a project stands beside bundles, and summaries of other projects."""
        files = {}
        for number in range(self.rng.choice([0, 0, 1, 1, 2])):
            known = write_summary(summary_of(self.held(self.any_project())))
            data = self.rng.choice([known, *self.bundles[-2:]])
            files[f"copy{number}"] = damaged(self.rng, data) if self.rng.random() < 0.06 else data
        self.step("status", self.any_project(), *files, **files)

    def progress(self) -> None:
        project = self.any_project()
        self.step("progress", project, *([self.any_book(project)] if self.rng.random() < 0.4 else []))

    def any_sheet(self) -> bytes:
        return self.sheet if self.rng.random() < 0.5 else make_sheet(self.rng)

    def check(self) -> None:
        project = self.any_project()
        self.look("check", project, self.any_book(project))

    def words(self) -> None:
        project = self.any_project()
        self.look("words", project, self.any_book(project))

    def find(self) -> None:
        project = self.any_project()
        book = self.any_book(project)
        needle = self.rng.choice(NEEDLES)
        chance = self.rng.random()
        if chance < 0.4:
            needle = self.part_of_book(project, book) or needle
        elif chance < 0.5:
            needle = "aa"
        self.look("find", project, book, needle)

    def look(self, command: str, project: str, book: str, *needle: str) -> None:
        """A look at a book by a sheet, now and then at all books, by the program's own sheet, or with the lines of the text."""
        words = [project, book, "sheet"]
        # Options end before a needle that begins with a hyphen.
        is_plain = "".join(needle).startswith("-")
        if self.rng.random() < 0.5 and not is_plain:
            words = self.rng.choice([[project], [project, book], [project, "--sheet", "sheet"], [project, book, "--sheet", "sheet"]])
        options = ["--text"] if command != "words" and self.rng.random() < 0.4 and not is_plain else []
        self.step(command, *options, *words, *needle, sheet=self.any_sheet())

    def read(self) -> None:
        """A book, a chapter or a segment as plain text, by the program's own sheet or another, in lines of some width."""
        project = self.any_project()
        part = self.any_book(project)
        if self.rng.random() < 0.4:
            part += self.rng.choice([" 0", " 1", " 2", " 1:1", " 1:2", " 3:9"])
        words = ["--sheet", "sheet"] if self.rng.random() < 0.6 else []
        if self.rng.random() < 0.7:
            words += ["--width", self.rng.choice(["1", "5", "12", "20", "40", "9999", "0", "wide"])]
        self.step("read", project, part, *words, sheet=self.any_sheet())

    def part_of_book(self, project: str, book: str) -> str:
        """Some characters of a book, as they are there."""
        try:
            text = export(self.held(project), book).decode()
        except Fault:
            return ""
        place = self.rng.randrange(len(text) + 1)
        return text[place : place + self.rng.choice([1, 1, 2, 3, 6])].replace("\0", "")

    def fold(self) -> None:
        """Bundles one after another, now and then with something wrong in them or after them."""
        chosen = [self.rng.choice(self.bundles) for _ in range(self.rng.randint(0, 4)) if self.bundles]
        if chosen and self.rng.random() < 0.15:
            place = self.rng.randrange(len(chosen))
            chosen[place] = damaged(self.rng, chosen[place])
        self.step("fold", self.any_book(self.any_project()), given=b"".join(chosen))

    def combine(self) -> None:
        """The one bundle of some, by their names or on standard input; now and then one is damaged."""
        chosen = [self.rng.choice(self.bundles) for _ in range(self.rng.randint(0, 4)) if self.bundles]
        if chosen and self.rng.random() < 0.15:
            place = self.rng.randrange(len(chosen))
            chosen[place] = damaged(self.rng, chosen[place])
        sealed = ["--sealed"] if self.rng.random() < 0.2 else []
        if self.rng.random() < 0.5:
            self.step("combine", *sealed, given=b"".join(chosen))
        else:
            names = ["one", "other", "third", "fourth"][: len(chosen)]
            self.step("combine", *names, *sealed, **dict(zip(names, chosen)))

    def wrong_words(self) -> None:
        """A line with a wrong shape, or with wrong words in it."""
        project = self.any_project()
        ref = self.rng.choice(WRONG_REFS)
        words = self.rng.choice(
            [
                self.rng.choice(WRONG_LINES).split(),
                ["init", "new", self.rng.choice(WRONG_NAMES)],
                ["init", project, self.rng.choice(NAMES + WRONG_NAMES)],
                [self.rng.choice(["edit", "shown", "edit-over"]), project, ref],
                ["edit-over", project, self.rng.choice([ref, "MAT 1:1"]), "1:ana", self.rng.choice(WRONG_IDS)],
                ["export", project, self.rng.choice(WRONG_BOOKS)],
                ["export", project, "--into", "missing", *self.rng.choice([[], ["MAT"], ["MAT", self.rng.choice(WRONG_BOOKS)]])],
                ["sync", project, "missing"],
                [self.rng.choice(["check", "words"]), "missing", self.rng.choice(["mat", "MAT"]), "missing"],
                [self.rng.choice(["import", "receive", "delta"]), project, "missing"],
                ["import", project, *self.rng.choice([["missing", "--since", "missing"], ["--since", "missing"]])],
                ["fold", self.rng.choice(WRONG_BOOKS)],
            ]
        )
        self.step(*words)

    def long_file(self) -> None:
        """A file, or standard input, of the greatest length, or longer by a byte."""
        project = self.any_project()
        line = self.rng.choice(["receive", "receive", "import", "edit", "fold"])
        zeros = Zeros(LONGEST + (0 if line == "receive" and self.rng.random() < 0.5 else 1))
        if line == "edit":
            self.step("edit", project, "MAT 1:1", given=zeros)
        elif line == "fold":
            self.step("fold", "MAT", given=zeros)
        else:
            self.step(line, project, "long", long=zeros)
            self.step("report", project, long=b"")


ACTIONS = [Maker.import_book, Maker.import_several, Maker.import_since, Maker.edit, Maker.empty_chapter]
WEIGHTS = [12, 2, 8, 10, 3]
ACTIONS += [Maker.edit_over, Maker.fork, Maker.show, Maker.exchange, Maker.receive_several, Maker.receive_old, Maker.combine]
WEIGHTS += [9, 4, 5, 7, 2, 3, 2]
ACTIONS += [Maker.exchange_delta, Maker.lacking_delta, Maker.odd_summary, Maker.use_numbers_up]
WEIGHTS += [5, 2, 3, 0.7]
ACTIONS += [Maker.thin, Maker.forge, Maker.forge_thinned, Maker.change_thinned, Maker.rename]
WEIGHTS += [6, 13, 5, 3, 4]
ACTIONS += [Maker.export, Maker.report, Maker.check, Maker.words, Maker.find, Maker.read, Maker.fold]
WEIGHTS += [6, 7, 11, 8, 9, 9, 4]
ACTIONS += [Maker.status, Maker.progress]
WEIGHTS += [9, 5]
ACTIONS += [Maker.sync, Maker.sync_all, Maker.set_back, Maker.export_into]
WEIGHTS += [14, 3, 2, 5]
ACTIONS += [Maker.history, Maker.changes, Maker.restore, Maker.restore_since]
WEIGHTS += [6, 6, 6, 4]
ACTIONS += [Maker.settle]
WEIGHTS += [8]
ACTIONS += [Maker.odd_project, Maker.wrong_words, Maker.long_file]
WEIGHTS += [2, 4, 0.5]
