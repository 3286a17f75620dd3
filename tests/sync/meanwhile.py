"""Other commands, and an editor, between a sync that is cut short and the next one: no text is lost, and the folder goes on."""
import concurrent.futures
import os
import re
import shutil
import tempfile
from pathlib import Path
from typing import Callable, Iterator, Optional

from between import Between
from calls import SYNC, begun, refusals
from stage import Answer, Tally, run, wanted

# A sync and what it reads of others' work.
CUT = SYNC[:-1]
CUT_WITH_BUNDLE = SYNC
# What somebody wrote, and where it has to be shown in the end.
FILES = {"MAT 1:1": b"\\v 1 ana\n", "LUK 1:1": b"\\v 1 ana too\n"}
EDIT = {"MAT 1:2": b"\\v 2 meanwhile\n"}
OLD = "\\id MAT\n\\c 1\n\\v 1 later\n\\v 2 And\n"

# What is done in between, in the folder of the scene.
Meanwhile = Callable[[Path], None]


def check_meanwhile(tally: Tally, between: Between, work: Path) -> None:
    scene = begun(between.program, work / "cut")

    def commands(*lines: list[str]) -> Meanwhile:
        def done(home: Path) -> None:
            for words in lines:
                wanted(run(between.program, home, words, EDIT["MAT 1:2"] if words[0] == "edit" else b""))

        return done

    def exchanged_and_set_back(home: Path) -> None:
        """The edit goes to another copy, and the project is set back to the copy of the evening."""
        commands(["edit", "p", "MAT 1:2"])(home)
        home.joinpath("mail").write_bytes(wanted(run(between.program, home, ["send", "p"])))
        commands(["receive", "bens", "mail"])(home)
        home.joinpath("bundle").write_bytes(wanted(run(between.program, home, ["send", "bens"])))
        shutil.copyfile(scene / "p", home / "p")

    edit = ["edit", "p", "MAT 1:2"]
    check_ways(tally, between, work, scene, "an edit", CUT, commands(edit), CUT)
    check_ways(tally, between, work, scene, "an export and an edit", CUT, commands(["export", "p", "MRK", "--into", "texts"], edit), CUT)
    check_ways(tally, between, work, scene, "another's sync and an edit", CUT, commands(["sync", "bens", "texts"], edit), CUT)
    check_ways(tally, between, work, scene, "an exchange and a set-back", CUT, exchanged_and_set_back, CUT_WITH_BUNDLE)
    check_old_text(tally, between, work, scene)


def check_ways(
    tally: Tally, between: Between, work: Path, scene: Path, name: str, cut: list[str], meanwhile: Meanwhile, words: list[str]
) -> None:
    """Disturbs a sync, does something else, which may give an id that the sync may have given, and syncs again."""

    def tried(way: str) -> tuple[bool, Answer, list[str], list[str]]:
        with disturbed(between, work, scene, cut, way) as home:
            is_told = tells_of_cut(between.program, home)
            meanwhile(home)
            again = run(between.program, home, words)
            return is_told, again, unshown(between.program, home, FILES | EDIT), left_over(home)

    ways = list(ways_of(between, work, scene, cut))
    with concurrent.futures.ThreadPoolExecutor(os.cpu_count()) as lanes:
        for way, (is_told, again, lost, left) in zip(ways, lanes.map(tried, ways)):
            what = f"sync, {way}, {name}, and a sync: {again}"
            tally.check(again.status == 0 and not lost and not left, f"{what}, lost {lost}, left {left}")
            tally.check(is_told, f"{way}: `status` does not say whether the sync was cut short")
    tally.check(len(ways) > 50, f"sync and {name}: {len(ways)} ways were tried")


def check_old_text(tally: Tally, between: Between, work: Path, scene: Path) -> None:
    """Disturbs a sync, after which an editor that was open all the while saves its old text with one change: what came in stays."""
    came = {"MAT 1:2": b"\\v 2 ben\n", "MAT 1:3": b"\\v 3 ben\n"}

    def tried(way: str) -> tuple[Answer, list[str]]:
        with disturbed(between, work, scene, CUT_WITH_BUNDLE, way) as home:
            home.joinpath("texts/41MATana.SFM").write_text(OLD)
            again = run(between.program, home, CUT_WITH_BUNDLE)
            stale = again if again.status == 0 else run(between.program, home, [*CUT_WITH_BUNDLE, "--stale"])
            return stale, unshown(between.program, home, came | {"MAT 1:1": b"\\v 1 later\n"})

    ways = list(ways_of(between, work, scene, CUT_WITH_BUNDLE))
    with concurrent.futures.ThreadPoolExecutor(os.cpu_count()) as lanes:
        for way, (stale, lost) in zip(ways, lanes.map(tried, ways)):
            tally.check(stale.status == 0 and not lost, f"sync, {way}, an old text is saved, and a sync: {stale}, lost {lost}")
    tally.check(len(ways) > 50, f"sync and an old text: {len(ways)} ways were tried")


def ways_of(between: Between, work: Path, scene: Path, words: list[str]) -> Iterator[str]:
    """Each call of a sync that changes something on the disk, killed or failing."""
    given = work / "nothing was given"
    given.write_bytes(b"")
    with tempfile.TemporaryDirectory(dir=work) as place:
        whole = between.run(Path(shutil.copytree(scene, Path(place) / "whole", symlinks=True)), words, given, "")
    return (way for way in refusals(whole) if not way.startswith(("memory", "read", "look")))


class disturbed:
    """A copy of the scene in which a sync was disturbed."""

    def __init__(self, between: Between, work: Path, scene: Path, words: list[str], way: str) -> None:
        self.between, self.scene, self.words, self.way = between, scene, words, way
        self.given = work / "nothing was given"
        self.place: Optional[tempfile.TemporaryDirectory] = tempfile.TemporaryDirectory(dir=work)

    def __enter__(self) -> Path:
        home = Path(self.place.name) / "tried"
        shutil.copytree(self.scene, home, symlinks=True)
        self.between.run(home, self.words, self.given, self.way)
        return home

    def __exit__(self, *_: object) -> None:
        self.place.cleanup()


def tells_of_cut(program: Path, home: Path) -> bool:
    """Whether `status` says that the sync was cut short exactly where something is left of it."""
    is_cut = any((home / "texts/.usfm_team" / it).exists() for it in ("before", "next"))
    told = run(program, home, ["status", "p", "texts"])
    return told.status == 0 and told.error == (b"a `sync` of texts was cut short: run it again first\n" if is_cut else b"")


def unshown(program: Path, home: Path, texts: dict[str, bytes]) -> list[str]:
    return [where for where, text in texts.items() if text not in run(program, home, ["shown", "p", where]).output]


def left_over(home: Path) -> list[str]:
    """What stands in the program's folder beside what is always there."""
    return [it.name for it in (home / "texts/.usfm_team").iterdir() if not re.fullmatch(r"base(\.\d)?|days|names", it.name)]
