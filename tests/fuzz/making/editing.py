"""Imports and edits."""
from model.bundles import read_whole_bundle
from model.faults import Fault
from model.operations import Set, export, shown
from model.references import BOOK_HEAD, write_ref

from .damage import damaged
from .steps import BOOKS, Steps
from .texts import broken_text, changed_book, make_book, without_verses

WRONG_OPENINGS = ["\\id mat", "\\id", "", "\\id  MAT", "\\c 1", "\ufeff\ufeff\\id MAT", "\\id* MAT"]


class Editing(Steps):
    """Commands that make operations."""

    def import_book(self) -> None:
        project = self.any_project()
        self.step("import", project, "book", book=self.any_file(project))

    def import_several(self) -> None:
        """Books that are taken in together, all or none. Each is made for the project as it is before."""
        project = self.any_project()
        names = ["one", "other", "third"][: self.rng.choice([2, 2, 3])]
        files = {name: self.any_file(project) for name in names}
        if self.rng.random() < 0.1:
            del files[self.rng.choice(names)]
        self.step("import", project, *names, **files)

    def import_since(self) -> None:
        """Files that were written from a bundle, of now or of some time before, and then perhaps changed."""
        project = self.any_project()
        bundle = self.step("send", self.any_project()).output
        if self.bundles and self.rng.random() < 0.7:
            bundle = self.rng.choice(self.bundles)
        try:
            base = read_whole_bundle(bundle)
        except Fault:
            return
        books = sorted({it.book for it in base.values()})
        names = ["one", "other"][: self.rng.choice([1, 1, 1, 2])]
        files = {name: self.changed_file(base, self.rng.choice(books)) for name in names if books}
        if self.rng.random() < 0.05:
            bundle = damaged(self.rng, bundle)
        place = self.rng.choice([0, len(names)])
        words = [*names[:place], "--since", "base", *names[place:]]
        for _ in range(self.rng.choice([1, 1, 1, 2])):
            self.step("import", project, *words, base=bundle, **files)

    def changed_file(self, base: Set, book: str) -> bytes:
        """A book's file of a set, with some changes or none."""
        text = export(base, book)
        for _ in range(self.rng.choice([0, 1, 1, 1, 2])):
            text = changed_book(self.rng, text)
        return broken_text(self.rng, text) if self.rng.random() < 0.04 else text

    def any_file(self, project: str) -> bytes:
        """A book's file, mostly one that changes little."""
        book = self.any_book(project) if self.rng.random() < 0.7 else self.rng.choice(BOOKS)
        try:
            text = export(self.held(project), book)
            text = changed_book(self.rng, text) if self.rng.random() < 0.9 else text
        except Fault:
            text = make_book(self.rng, book, self.rng.choice(self.sizes))
        chance = self.rng.random()
        if chance < 0.04:
            text = broken_text(self.rng, text)
        elif chance < 0.1:
            text = self.rng.choice(WRONG_OPENINGS).encode() + text[len("\\id MAT") :]
        return text

    def edit(self) -> None:
        project = self.any_project()
        book, key = self.any_segment(project)
        self.step("edit", project, write_ref(book, key), given=self.any_text(book, key))

    def empty_chapter(self) -> None:
        """Empties the head of a chapter, whose line is then picked, and perhaps leaves its verses out."""
        project = self.any_project()
        heads = [it for it in self.held(project).values() if it.key.is_head and it.key != BOOK_HEAD]
        if heads:
            head = self.rng.choice(heads)
            self.step("edit", project, write_ref(head.book, head.key))
            if self.rng.random() < 0.5:
                text = export(self.held(project), head.book)
                self.step("import", project, "book", book=without_verses(text, head.key.chapter))

    def edit_over(self) -> None:
        project = self.any_project()
        held = self.held(project)
        book, key = self.any_segment(project)
        ids = [it.id for it in shown(held, book, key)]
        self.rng.shuffle(ids)
        if self.rng.random() < 0.3:
            ids = ids[: self.rng.randint(0, len(ids))]
        while self.rng.random() < 0.25:
            ids.insert(self.rng.randint(0, len(ids)), self.any_id(held))
        if ids and self.rng.random() < 0.1:
            ids.append(self.rng.choice(ids))
        words = [f"{it.number}:{it.name}" for it in ids]
        if ids and self.rng.random() < 0.2:
            words += ["--text-of", self.rng.choice(words)]
        self.step("edit-over", project, write_ref(book, key), *words, given=self.any_text(book, key))

    def fork(self) -> None:
        """Two projects edit one segment, and one receives what the other made."""
        one, other = self.any_project(), self.any_project()
        book, key = self.any_segment(one)
        for project in (one, other):
            self.step("edit", project, write_ref(book, key), given=self.any_text(book, key))
        self.bundles.append(self.step("send", one).output)
        self.step("receive", other, "bundle", bundle=self.bundles[-1])
        if self.rng.random() < 0.5:
            self.step("report", other)
