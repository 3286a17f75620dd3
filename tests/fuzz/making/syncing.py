"""Commands on folders of books' files."""
from typing import Optional

from model.bundles import read_whole_bundle
from model.faults import Fault
from model.folders import book_begun, books_of, may_be_book
from model.operations import export
from model.plans import base_of
from model.references import write_ref

from .damage import damaged
from .editing import Editing
from .steps import BOOKS
from .texts import broken_text, changed_book, make_book

# Names of files: of books, and of what is skipped.
BOOK_NAMES = ["{}.usfm", "{}.sfm", "41{}ana.SFM", "{} a.Usfm", "a.{}.sFm", "\u00e9{}.usfm"]
OTHER_NAMES = [".{}.usfm", "{}.txt", "{}.usfm.new", "{}usfm", "below/{}.usfm", "{}.usfm~"]

# What is written, or taken away, before a step.
Files = dict[str, Optional[bytes]]


class Syncing(Editing):
    """Commands on the folder that each project has, in which somebody changes files."""

    def sync(self) -> None:
        """A sync of what somebody has changed, mostly in the project's own folder, with some bundles."""
        project = self.any_project()
        place = self.place_of(project if self.rng.random() < 0.93 else self.any_project())
        names = ["one", "other"][: self.rng.choice([0, 0, 1, 1, 2])]
        files = self.changed_files(project, place)
        bundles = {name: self.rng.choice(self.bundles) for name in names if self.bundles}
        if bundles and self.rng.random() < 0.05:
            name = self.rng.choice(sorted(bundles))
            bundles[name] = damaged(self.rng, bundles[name])
        for _ in range(self.rng.choice([1, 1, 2])):
            self.step("sync", project, place, *self.wishes(), *names, **files, **bundles)

    def wishes(self) -> list[str]:
        """What is said to be meant: mostly all of it, so that the play goes on; and now and then it is only tried."""
        meant = ["--emptied", self.rng.choice(["--undone", "--undone", "--stale"]), "--join"] if self.rng.random() < 0.7 else []
        return meant + (["--try"] if self.rng.random() < 0.1 else [])

    def set_back(self) -> None:
        """A project whose file is an older one of its own, while its folder stays as it was."""
        project = self.any_project()
        before = self.folder[project]
        self.step("sync", project, self.place_of(project), **self.begun(self.place_of(project)))
        for _ in range(self.rng.choice([1, 1, 2])):
            book, key = self.any_segment(project)
            self.step("edit", project, write_ref(book, key), given=self.any_text(book, key))
        self.step("sync", project, self.place_of(project))
        words = self.rng.choice([["sync", project, self.place_of(project)], ["export", project, "--into", self.place_of(project)]])
        self.step(*words, **{project: before})

    def sync_all(self) -> None:
        """A day: each project's folder is changed and comes in, and all get what the first one has."""
        for project in self.projects:
            self.step("sync", project, self.place_of(project), **self.changed_files(project, self.place_of(project)))
        sent = self.step("send", self.projects[0]).output
        self.bundles.append(sent)
        for project in self.projects[1:]:
            self.step("sync", project, self.place_of(project), "bundle", bundle=sent)

    def export_into(self) -> None:
        """Books into a folder, in which perhaps something was changed."""
        project = self.any_project()
        place = self.place_of(project if self.rng.random() < 0.9 else self.any_project())
        books = [self.any_book(project) for _ in range(self.rng.choice([0, 0, 0, 1, 2]))]
        files = self.changed_files(project, place) if self.rng.random() < 0.6 else self.begun(place)
        self.step("export", project, "--into", place, *books, **files)

    def place_of(self, project: str) -> str:
        return f"t{project[1:]}"

    def begun(self, place: str) -> Files:
        """A folder that is there."""
        return {f"{place}/.kept": b""} if self.rng.random() < 0.98 else {}

    def files_in(self, place: str) -> list[str]:
        """The files of a place that are books'."""
        names = [it for it in sorted(self.folder) if it.startswith(place + "/")]
        return [it for it in names if may_be_book(it[len(place) + 1 :]) and book_begun(self.folder[it])]

    def changed_files(self, project: str, place: str) -> Files:
        """What somebody has done in a folder."""
        files = self.begun(place)
        changes = [self.change_file] * 8 + [self.new_file, self.new_file, self.rename_file, self.take_away]
        changes += [self.copy_file, self.other_file, self.change_own, self.forget, self.cut_short]
        changes += [self.older_version, self.other_ends, self.other_ends]
        for _ in range(self.rng.choice([0, 1, 1, 2, 3])):
            files.update(self.rng.choice(changes)(project, place))
        return files

    def change_file(self, project: str, place: str) -> Files:
        found = self.files_in(place)
        if not found:
            return self.new_file(project, place)
        path = self.rng.choice(found)
        text = self.folder[path]
        try:
            text = changed_book(self.rng, text)
        except Fault:
            pass
        return {path: broken_text(self.rng, text) if self.rng.random() < 0.03 else text}

    def new_file(self, project: str, place: str) -> Files:
        """A book's file, of a book that the project has or does not have."""
        book = self.rng.choice(BOOKS) if self.rng.random() < 0.7 else self.any_book(project)
        if any(book_begun(self.folder[it]) == book for it in self.files_in(place)) and self.rng.random() < 0.9:
            return {}
        name = self.rng.choice(BOOK_NAMES).format(book)
        try:
            return {f"{place}/{name}": export(self.held(project), book)}
        except Fault:
            return {f"{place}/{name}": make_book(self.rng, book, self.rng.choice(self.sizes))}

    def rename_file(self, project: str, place: str) -> Files:
        found = self.files_in(place)
        if not found:
            return {}
        path = self.rng.choice(found)
        name = self.rng.choice(BOOK_NAMES).format(self.rng.choice(["x", "ben"]))
        return {path: None, f"{place}/{name}": self.folder[path]}

    def take_away(self, project: str, place: str) -> Files:
        found = self.files_in(place)
        return {self.rng.choice(found): None} if found else {}

    def copy_file(self, project: str, place: str) -> Files:
        """Two files of one book, until one is taken away."""
        copies = [it for it in self.files_in(place) if it.endswith("/copy.usfm")]
        if copies:
            return {it: None for it in copies}
        found = self.files_in(place)
        return {f"{place}/copy.usfm": self.folder[self.rng.choice(found)]} if found and self.rng.random() < 0.5 else {}

    def other_file(self, project: str, place: str) -> Files:
        """A file that is no book's by its name, or by how it begins; or one that stands where a book is to go."""
        book = self.rng.choice(BOOKS)
        name = self.rng.choice(OTHER_NAMES + ["notes.sfm", f"{book}.usfm"]).format(book)
        return {f"{place}/{name}": self.rng.choice([b"notes", b"\\id mat", b"\\h MAT", b""])}

    def change_own(self, project: str, place: str) -> Files:
        """What a file was written from is lost, or damaged, or is another project's."""
        own = [it for it in sorted(self.folder) if it.startswith(f"{place}/.usfm_team/") and "/days/" not in it]
        if not own:
            return {}
        path = self.rng.choice(own)
        chance = self.rng.random()
        if chance < 0.4:
            return {path: None}
        if chance < 0.7 or not self.bundles:
            return {path: damaged(self.rng, self.folder[path])}
        return {path: self.rng.choice(self.bundles)}

    def forget(self, project: str, place: str) -> Files:
        """A file that was changed, of which nobody knows what it was written from."""
        return {**self.change_file(project, place), f"{place}/.usfm_team/base": None}

    def cut_short(self, project: str, place: str) -> Files:
        """What a sync leaves that was cut short: the next base, and the new file of a book that is not in its place, or is."""
        held = self.held(project)
        if self.bundles and self.rng.random() < 0.5:
            try:
                held = read_whole_bundle(self.rng.choice(self.bundles))
            except Fault:
                return {}
        books = books_of(held)
        if not books:
            return {}
        book = self.rng.choice(books)
        files: Files = {f"{place}/.usfm_team/next": base_of(held, books)} if self.rng.random() < 0.8 else {}
        chance = self.rng.random()
        if chance < 0.4:
            files[f"{place}/.usfm_team/{book}.new"] = export(held, book)
        elif chance < 0.7:
            found = [it for it in self.files_in(place) if book_begun(self.folder[it]) == book]
            files[found[0] if found else f"{place}/{book}.usfm"] = export(held, book)
        return files

    def older_version(self, project: str, place: str) -> Files:
        """The folder as an older version of the program left it: a bundle for each book."""
        own = f"{place}/.usfm_team"
        if f"{own}/base" not in self.folder:
            return {}
        try:
            held = read_whole_bundle(self.folder[f"{own}/base"])
        except Fault:
            return {}
        gone: Files = {it: None for it in self.folder if it.startswith(f"{own}/base") or it == f"{own}/next"}
        return {**gone, **{f"{own}/{book}.bundle": base_of(held, [book]) for book in books_of(held)}}

    def other_ends(self, project: str, place: str) -> Files:
        """A file that an editor saves with other line ends, or with U+FEFF, and perhaps changed."""
        found = self.files_in(place)
        if not found:
            return {}
        path = self.rng.choice(found)
        text = self.folder[path]
        if self.rng.random() < 0.3:
            try:
                text = changed_book(self.rng, text)
            except Fault:
                pass
        ends = self.rng.choice([b"\r\n", b"\n"])
        mark = self.rng.choice([b"", b"", "\ufeff".encode()])
        return {path: mark + text.removeprefix("\ufeff".encode()).replace(b"\r\n", b"\n").replace(b"\n", ends)}
