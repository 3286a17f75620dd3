"""Bundles, summaries and projects that no replica made."""
from dataclasses import replace
from typing import Optional

from model.bundles import write_bundle
from model.operations import Operation, Set, replaced_in, segment, set_of, without_text
from model.references import BOOK_HEAD, GREATEST_NUMBER, Id
from model.tokens import fits

from .damage import damaged, wrong_bundle, wrong_summary
from .editing import Editing
from .steps import BOOKS, NAMES
from .texts import make_text


class Forging(Editing):
    """Commands on bytes that were forged."""

    def odd_summary(self) -> None:
        project = self.any_project()
        summary = wrong_summary(self.rng, self.name(project).encode())
        if self.rng.random() < 0.3:
            summary = damaged(self.rng, summary)
        self.step("delta", project, "summary", summary=summary)

    def forge(self) -> None:
        """A bundle that no replica made: it may clash, and name what is held nowhere or elsewhere."""
        project = self.any_project()
        held = self.held(project)
        made: Set = {}
        for _ in range(self.rng.choice([0, 1, 1, 2, 3, 5])):
            operation = self.forged(held, made)
            if operation is not None:
                made[operation.id] = operation
        for id in replaced_in(made):
            if self.rng.random() < 0.5:
                made[id] = without_text(made[id])
        operations = [made[id] for id in sorted(made)]
        bundle = write_bundle(made)
        if self.rng.random() < 0.45:
            bundle = wrong_bundle(self.rng, operations)
        else:
            self.bundles.append(bundle)
        self.step("receive", project, "bundle", bundle=bundle)
        if self.rng.random() < 0.3:
            self.step("report", project)

    def forged(self, held: Set, made: Set) -> Optional[Operation]:
        """An operation whose text fits, or none where chance gave none."""
        book = self.rng.choice([it.book for it in held.values()] + BOOKS[:3])
        key = self.any_key(held, book)
        text = make_text(self.rng, book, key)
        if not fits(book, key, text):
            return None
        numbers = [1, 2, 3, 4, 5, 6, 7, 8, 9, 12, 20, 40, max([id.number for id in held], default=0) + 1]
        id = Id(self.rng.choice(numbers), self.rng.choice(NAMES))
        same = [it.id for it in [*held.values(), *made.values()] if it.book == book and it.key == key]
        named = {it for it in same if self.rng.random() < 0.4}
        named |= {self.any_id(held) for _ in range(self.rng.choice([0, 0, 1, 2, 3]))}
        return Operation(id, book, key, tuple(sorted(it for it in named if it.number < id.number)), text)

    def forge_thinned(self) -> None:
        """The operations of a segment, some without their texts; one may be missing, or be elsewhere."""
        project = self.any_project()
        replaced = replaced_in(self.held(project))
        if not replaced:
            return
        one = self.rng.choice(list(replaced.values()))
        made = set_of(segment(self.held(project), one.book, one.key))
        for id in replaced.keys() & made.keys():
            if id == one.id or self.rng.random() < 0.5:
                made[id] = without_text(made[id])
        changed = made.pop(self.rng.choice(sorted(made)))
        key = self.any_key(self.held(project), one.book)
        elsewhere = replace(changed, key=key, text=changed.text and make_text(self.rng, one.book, key))
        alone = replace(changed, replaced=changed.replaced[1:])
        other = self.rng.choice([None, changed, changed, elsewhere, alone])
        if other is not None and (other.text is None or fits(other.book, other.key, other.text)):
            made[other.id] = other
        self.bundles.append(write_bundle(made))
        self.receive(self.bundles[-1])

    def change_thinned(self) -> None:
        """What a project holds without its text comes with one, perhaps in another segment or over other ids."""
        project = self.any_project()
        replaced = replaced_in(self.held(project))
        if not replaced:
            return
        old = self.rng.choice(list(replaced.values()))
        if old.text is not None:
            self.step("thin", project)
        key = self.any_key(self.held(project), old.book) if self.rng.random() < 0.5 else old.key
        named = self.rng.choice([old.replaced, old.replaced[1:], (Id(1, "a" * 32),) * (old.id.number > 1)])
        text = make_text(self.rng, old.book, key)
        if fits(old.book, key, text):
            bundle = write_bundle({old.id: Operation(old.id, old.book, key, named, text)})
            self.step("receive", project, "bundle", bundle=bundle)

    def rename(self) -> None:
        """Operations beside held ones that differ in the name, the named ids or the text alone, or in nothing."""
        project = self.any_project()
        held = list(self.held(project).values())
        more: Set = {}
        names = NAMES if self.rng.random() < 0.7 else []
        for old in self.rng.sample(held, min(len(held), self.rng.choice([1, 2, 4, 6]))):
            text = self.rng.choice([old.text, make_text(self.rng, old.book, old.key)])
            replaced = self.rng.choice([old.replaced, old.replaced, old.replaced[1:]])
            if text is None or fits(old.book, old.key, text):
                id = Id(old.id.number, self.rng.choice([old.id.name, *names]))
                more[id] = Operation(id, old.book, old.key, replaced, text)
        self.step("receive", project, "bundle", bundle=write_bundle(more))
        if self.rng.random() < 0.5:
            self.step("report", project)

    def use_numbers_up(self) -> None:
        """A bundle after which few numbers are left for edits, or none."""
        project = self.any_project()
        book, name = self.any_book(project), self.rng.choice(NAMES)
        id = Id(GREATEST_NUMBER - self.rng.choice([0, 0, 1, 3]), name)
        last = Operation(id, book, BOOK_HEAD, (), f"\\id {book}\n".encode())
        self.step("receive", project, "bundle", bundle=write_bundle({id: last}))
        self.rng.choice([self.edit, self.import_book])()

    def odd_project(self) -> None:
        """A project's file that was damaged, or is another file."""
        data = self.folder[self.any_project()]
        name = self.rng.choice([0, 2, 3, 8, 9, 11, 14])
        changes = [damaged(self.rng, data), data[: self.rng.randint(0, 30)], data[8:], b""]
        changes.append(data[:name] + bytes([self.rng.randrange(256)]) + data[name + 1 :])
        odd = self.rng.choice(changes)
        line = self.rng.choice(["send odd", "report odd", "export odd MAT", "summary odd"])
        self.step(*line.split(), odd=odd)
