"""The steps of a play that is being made, each done in a folder of its own, which shows what the next ones can build on."""
from functools import lru_cache
from random import Random
from typing import Optional

from model.bundles import read_project, seal
from model.operations import Set, keys_of
from model.program import WISHES, Answer, Content, Folder
from model.references import HEAD, Id, Key, Verse

from .damage import damaged
from .plays import Play, Step, Wanted, do
from .stylesheets import make_sheet
from .texts import broken_text, make_text

NAMES = ["ana", "ben", "cy", "-", "a", "a0", "a-b", "z" * 32]
BOOKS = ["MAT", "LUK", "GEN", "XXA", "0A1"]


@lru_cache(maxsize=8)
def replica_in(data: bytes) -> tuple[str, Set]:
    """The replica of a project file. Making a step looks at the same few ones again and again."""
    return read_project(data)

# Words that begin with a hyphen, and are what they say.
OPTIONS = ("-", "--since", "--into", "--text-of", "--sheet", "--text", "--width", "--lines", "--files", "--sealed", "--chapter", "--all", "--answers", *WISHES)


class Steps:
    """The steps so far, and what chance chooses for the next ones."""

    def __init__(self, rng: Random) -> None:
        self.rng = rng
        self.folder: Folder = {}
        self.play: Play = []
        self.wanted: list[Wanted] = []
        self.bundles: list[bytes] = []
        self.summaries: list[bytes] = []
        self.answers: list[bytes] = []
        self.projects: list[str] = []
        self.sheet = make_sheet(rng)
        self.sizes = [150] if rng.random() < 0.02 else [2, 4, 8, 15]

    def step(self, *words: str, given: Content = b"", **files: Optional[Content]) -> Answer:
        """Adds a step with the files that it needs, where a third of the bundles are sealed. Options end before words that begin with
        a hyphen."""
        if any(it.startswith("-") and it not in OPTIONS for it in words):
            words = (words[0], "--", *words[1:])
        if words[:1] == ("receive",) and len(self.play) % 3 == 0:
            files = {name: seal(content) if isinstance(content, bytes) else content for name, content in files.items()}
        step = Step(words, tuple(files.items()), given)
        self.play.append(step)
        self.wanted.append(do(self.folder, step))
        return self.wanted[-1].answer

    def begin(self, name: str) -> None:
        project = f"p{len(self.projects)}"
        self.projects.append(project)
        self.step("init", project, name)

    def any_project(self) -> str:
        return self.rng.choice(self.projects)

    def name(self, project: str) -> str:
        return replica_in(self.folder[project])[0]

    def held(self, project: str) -> Set:
        return replica_in(self.folder[project])[1]

    def any_book(self, project: str) -> str:
        """A book, mostly one that is begun."""
        begun = sorted({it.book for it in self.held(project).values()})
        return self.rng.choice(begun) if begun and self.rng.random() < 0.96 else self.rng.choice(BOOKS)

    def any_key(self, held: Set, book: str) -> Key:
        """A segment, mostly one with an operation."""
        keys = keys_of(held, book)
        if keys and self.rng.random() < 0.75:
            return self.rng.choice(keys)
        chapter = self.rng.choice([0, 1, 1, 2, 3, 999])
        verse = Verse(self.rng.choice([0, 1, 2, 3, 4, 5, 999]), self.rng.choice(["", "", "", "a", "b", "z"]))
        return Key(chapter, HEAD if self.rng.random() < 0.3 else verse)

    def any_segment(self, project: str) -> tuple[str, Key]:
        book = self.any_book(project)
        return book, self.any_key(self.held(project), book)

    def any_text(self, book: str, key: Key) -> bytes:
        text = make_text(self.rng, book, key)
        return broken_text(self.rng, text) if self.rng.random() < 0.02 else text

    def any_id(self, held: Set) -> Id:
        """An id that is held or not."""
        if held and self.rng.random() < 0.7:
            return self.rng.choice(sorted(held))
        return Id(self.rng.choice([1, 2, 3, 5, 8, 13]), self.rng.choice(NAMES))

    def receive(self, bundle: bytes) -> None:
        if self.rng.random() < 0.06:
            bundle = damaged(self.rng, bundle)
        self.step("receive", self.any_project(), "bundle", bundle=bundle)
