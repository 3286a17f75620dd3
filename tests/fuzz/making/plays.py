"""Plays: command lines of the program one after another, with the files that they read."""
from dataclasses import dataclass
from typing import Optional

from model.program import Answer, Content, Folder, run


@dataclass(frozen=True)
class Step:
    """A line of words, the files that are written before it, or taken away where they are none, and its standard input."""

    words: tuple[str, ...]
    files: tuple[tuple[str, Optional[Content]], ...] = ()
    given: Content = b""


@dataclass(frozen=True)
class Wanted:
    """What has to come of a step: the answer, and the folder afterwards."""

    answer: Answer
    folder: Folder


Play = list[Step]


def wanted_of(play: Play) -> list[Wanted]:
    """What has to come of each step of a play that begins in an empty folder."""
    folder: Folder = {}
    return [do(folder, step) for step in play]


def do(folder: Folder, step: Step) -> Wanted:
    """Does a step in a folder, which it changes."""
    for name, content in step.files:
        if content is None:
            folder.pop(name, None)
        else:
            folder[name] = content
    answer = run(folder, step.words, step.given)
    return Wanted(answer, dict(folder))
