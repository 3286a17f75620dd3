"""What goes wrong with folders and projects on a disk, in daily work or because somebody wants it: no text is lost, no other file
is read or written, and the next command goes on."""
import errno
import fcntl
import os
import shutil
import subprocess
from pathlib import Path
from typing import Callable, Optional

from between import Between
from rows.vectors import BENS, FIRST
from stage import SECONDS, Answer, Tally, run, wanted

MATTHEW, MARK = "41MAT.SFM", "42MRK.SFM"
TEXTS = {
    MATTHEW: "\\id MAT\n\\c 1\n\\v 1 In\n\\v 2 And\n",
    MARK: "\\id MRK\n\\c 1\n\\v 1 The\n",
}
# A user without groups, and another one.
NOBODY, SOMEBODY = 65_534, 12_345
DONE = Answer(0, b"", b"")
CAME = b"came MAT 1:2 ben\ncame MRK 1:1 ben\n"  # what ben's bundle brings to a place


class Place:
    """A project of ana, a folder with two books that were written from it, and a bundle of ben, who changed a verse of each."""

    def __init__(self, program: Path, home: Path) -> None:
        self.program, self.home, self.folder = program, home, home / "texts"
        self.own = self.folder / ".usfm_team"
        self.folder.mkdir(parents=True)
        for name, text in TEXTS.items():
            self.write(name, text)
        wanted(self.run("init", "p", "ana"))
        wanted(self.run("sync", "p", "texts"))
        home.joinpath("anas").write_bytes(wanted(self.run("send", "p")))
        wanted(self.run("init", "bens", "ben"))
        wanted(self.run("receive", "bens", "anas"))
        for place, text in (("MAT 1:2", b"\\v 2 ben\n"), ("MRK 1:1", b"\\v 1 ben\n")):
            wanted(self.run("edit", "bens", place, given=text))
        home.joinpath("bundle").write_bytes(wanted(self.run("send", "bens")))

    def run(self, *words: str, given: bytes = b"", user: Optional[int] = None) -> Answer:
        return run(self.program, self.home, list(words), given, 0o022, user)

    def sync(self, *bundles: str) -> Answer:
        return self.run("sync", "p", "texts", *bundles)

    def write(self, name: str, text: str) -> None:
        self.folder.joinpath(name).write_bytes(text.encode())

    def read(self, name: str) -> str:
        return self.folder.joinpath(name).read_bytes().decode()

    def all(self) -> dict[str, bytes]:
        """What stands below the place."""
        return {str(it.relative_to(self.home)): it.read_bytes() for it in self.home.rglob("*") if it.is_file() and not it.is_symlink()}

    def export(self, code: str) -> bytes:
        return wanted(self.run("export", "p", code))


Accident = Callable[[Tally, Between, Path], None]


def check_accidents(tally: Tally, between: Between, work: Path, only: Optional[list[Accident]] = None) -> None:
    plays: list[Accident] = only or [
        check_no_longer_a_book,
        check_copies,
        check_removed,
        check_headless,
        check_closed_streams,
        check_links,
        check_pipes,
        check_set_back,
        check_unplaced,
        check_left_over,
        check_second_name,
        check_kept,
        check_modes,
        check_waits,
    ]
    for play in plays:
        play(tally, between, work / play.__name__)
    if only:
        return
    if os.geteuid() == 0:
        check_owners(tally, between, work / "owners")
    else:
        print("sync: not run, since this is not root: files of other owners")


def refused(file: str, fault: int = 131, said: str = "") -> Answer:
    return Answer(1, b"", f"{said}fault {fault}\nin {file}\n".encode())


# What is said of a file that was spoilt so.
SKIPPED = {
    "a blank line before": b"skipped texts/41MAT.SFM: \\id stands in line 2: take out what is before it\n",
    "UTF-16": b"skipped texts/41MAT.SFM: it is UTF-16: save it as UTF-8\n",
    "empty": b"skipped texts/41MAT.SFM: it is empty\n",
    "another book": b"",
}


def check_no_longer_a_book(tally: Tally, between: Between, home: Path) -> None:
    """A file that is no longer its book is not written anew beside it; when it is the book again, what came in is in it."""
    text = TEXTS[MATTHEW]
    spoilt = {
        "a blank line before": b"\n" + text.encode(),
        "UTF-16": text.encode("utf-16"),
        "empty": b"",
        "another book": TEXTS[MARK].replace("MRK", "LUK").encode(),
    }
    for number, (how, data) in enumerate(spoilt.items()):
        place = Place(between.program, home / str(number))
        place.folder.joinpath(MATTHEW).write_bytes(data)
        before = place.all()
        for words in (["sync", "p", "texts", "bundle"], ["export", "p", "--into", "texts"]):
            answer = place.run(*words)
            is_refused = answer == Answer(1, b"", SKIPPED[how] + b"fault 131\nin texts/41MAT.SFM\n")
            tally.check(is_refused and place.all() == before, f"{how}: {answer}")
        place.write(MATTHEW, text)
        answer = place.sync("bundle")
        tally.check(answer.status == 0 and place.read(MATTHEW) == text.replace("And", "ben"), f"{how}, mended: {answer}")
        tally.check(wanted(place.run("report", "p")) == b"", f"{how}, mended: there is a conflict")
    # Where it is not written down which file was the book's, one that is skipped may be it.
    place = Place(between.program, home / "unknown")
    place.own.joinpath("names").unlink()
    place.folder.joinpath(MATTHEW).write_bytes(b"\n" + text.encode())
    answer = place.sync("bundle")
    tally.check(answer.status == 1 and answer.error.endswith(b"fault 131\nin texts/41MAT.SFM\n"), f"of a name that is not known: {answer}")


def check_copies(tally: Tally, between: Between, home: Path) -> None:
    """Of a file and a copy beside it the copy is named, whichever name comes first."""
    place = Place(between.program, home)
    for copy in ("42MRK - Copy.SFM", "42MRK.SFM.sfm"):
        shutil.copy(place.folder / MARK, place.folder / copy)
        answer = place.sync()
        tally.check(answer == refused(f"texts/{copy}"), f"{copy}: {answer}")
        place.folder.joinpath(copy).unlink()
    tally.check(place.sync() == DONE, "a copy that was taken away")


def check_removed(tally: Tally, between: Between, home: Path) -> None:
    """A file that was removed comes back under its name; a renamed one stays what it was."""
    place = Place(between.program, home)
    place.folder.joinpath(MARK).unlink()
    answer = place.sync()
    is_back = place.read(MARK) == TEXTS[MARK] and answer == Answer(0, b"wrote texts/42MRK.SFM\n", b"")
    tally.check(is_back, f"a removed file: {answer}")
    place.folder.joinpath(MARK).rename(place.folder / "mark.usfm")
    answer = place.sync("bundle")
    is_renamed = not place.folder.joinpath(MARK).exists() and place.read("mark.usfm") == TEXTS[MARK].replace("The", "ben")
    tally.check(answer.status == 0 and is_renamed, f"a renamed file: {answer}")
    place.folder.joinpath("mark.usfm").unlink()
    tally.check(place.sync() == Answer(0, b"wrote texts/mark.usfm\n", b""), "the new name is not known")


def check_headless(tally: Tally, between: Between, home: Path) -> None:
    """A book whose head has not come has no file, until it comes."""
    home.joinpath("texts").mkdir(parents=True)
    home.joinpath("bens").write_bytes(BENS)
    home.joinpath("first").write_bytes(FIRST)
    wanted(run(between.program, home, ["init", "p", "cy"]))
    said = b"no file is written for MAT: the project does not have the book's head, which begins with \\id\n"
    answer = run(between.program, home, ["sync", "p", "texts", "bens"])
    is_none = not list(home.glob("texts/*.usfm")) and answer == Answer(0, b"new 1\ncame MAT 1:1 ben\nconflicts 0\n", said)
    tally.check(is_none, f"a book without a head: {answer}")
    tally.check(run(between.program, home, ["export", "p", "--into", "texts"]) == Answer(0, b"", said), "its export")
    answer = run(between.program, home, ["sync", "p", "texts", "first"])
    is_whole = home.joinpath("texts/MAT.usfm").read_bytes() == b"\\id MAT\n\\c 1\n\\v 1 At\n"
    tally.check(is_whole and answer == Answer(0, b"new 2\ncame MAT 0 ana\nwrote texts/MAT.usfm\n", b""), f"its head: {answer}")


def check_closed_streams(tally: Tally, between: Between, home: Path) -> None:
    """A stream that is closed is no place where a file is opened: no message goes into a project."""
    place = Place(between.program, home)
    place.write("notes.sfm", "notes")
    project = home.joinpath("p").read_bytes()
    for closed in ([2], [1], [1, 2], [0], [0, 1, 2]):

        def close() -> None:
            for handle in closed:
                os.close(handle)

        for words in (["sync", "p", "texts"], ["edit", "p", "MAT 1:x"], ["receive", "p", "missing"], ["edit", "p", "XXX 1:1"]):
            subprocess.run([between.program, *words], cwd=home, stdin=subprocess.DEVNULL, preexec_fn=close, capture_output=True, timeout=SECONDS)
            tally.check(home.joinpath("p").read_bytes() == project, f"{words} without {closed} changes the project")
        ran = subprocess.run([between.program, "report", "p"], cwd=home, stdin=subprocess.DEVNULL, preexec_fn=close, capture_output=True)
        tally.check(ran.returncode == 0, f"a report without {closed}: {ran}")
    # What cannot be said is still refused.
    ran = subprocess.run([between.program, "export", "p", "MAT"], cwd=home, preexec_fn=lambda: os.close(1), stderr=subprocess.PIPE)
    tally.check((ran.returncode, ran.stderr) == (1, b"fault 90 0\n"), f"an export to a closed stream: {ran}")
    ran = subprocess.run([between.program, "edit", "p", "MAT 1:1"], cwd=home, preexec_fn=lambda: os.close(0), stderr=subprocess.PIPE)
    tally.check((ran.returncode, ran.stderr) == (1, b"fault 120\n"), f"an edit from a closed stream: {ran}")


def check_links(tally: Tally, between: Between, home: Path) -> None:
    """What a link leads to does not come in, and is not written."""
    place = Place(between.program, home)
    private = home / "private"
    private.write_bytes(b"\\id LUK\n\\c 1\n\\v 1 private\n")
    place.folder.joinpath("luke.sfm").symlink_to("../private")
    answer = place.sync("bundle")
    wrote = b"new 2\n" + CAME + b"wrote texts/41MAT.SFM\nwrote texts/42MRK.SFM\n"
    tally.check(answer == Answer(0, wrote, b"skipped texts/luke.sfm: it is a link\n"), f"a link: {answer}")
    tally.check(b"private" not in home.joinpath("p").read_bytes(), "what a link leads to is in the project")
    place.folder.joinpath("luke.sfm").unlink()
    # A link in the place of a book's file.
    place.folder.joinpath(MARK).unlink()
    place.folder.joinpath(MARK).symlink_to("../private")
    answer = place.sync()
    tally.check(answer == refused(f"texts/{MARK}", said=f"skipped texts/{MARK}: it is a link\n"), f"a link for a file: {answer}")
    # A link in the place of what the files were written from.
    place.folder.joinpath(MARK).unlink()
    place.own.joinpath("base").unlink()
    place.own.joinpath("base").symlink_to("../../bundle")
    answer = place.sync()
    tally.check(answer.error == b"skipped texts/.usfm_team/base: it is a link\n", f"a link for the base: {answer}")
    tally.check(private.read_bytes() == b"\\id LUK\n\\c 1\n\\v 1 private\n", "what a link leads to was written")


def check_pipes(tally: Tally, between: Between, home: Path) -> None:
    """A pipe is not waited for."""
    place = Place(between.program, home)
    os.mkfifo(place.folder / "luke.sfm")
    answer = place.sync()
    tally.check(answer == Answer(0, b"", b"skipped texts/luke.sfm: it is a pipe\n"), f"a pipe: {answer}")
    place.folder.joinpath("luke.sfm").unlink()
    for name in ("base", "base.2", "next", "names"):
        place.own.joinpath(name).unlink(missing_ok=True)
        os.mkfifo(place.own / name)
        answer = place.sync()
        is_said = answer.error == f"skipped texts/.usfm_team/{name}: it is a pipe\n".encode()
        tally.check(answer.status == 0 and is_said, f"a pipe as {name}: {answer}")
        place.own.joinpath(name).unlink(missing_ok=True)


def check_set_back(tally: Tally, between: Between, home: Path) -> None:
    """A project that was set back to a copy gives no number again that is in the folder."""
    place = Place(between.program, home)
    copy = home.joinpath("p").read_bytes()
    place.write(MARK, TEXTS[MARK].replace("The", "after the copy"))
    wanted(place.sync())
    for name in (MARK, None):
        home.joinpath("p").write_bytes(copy)
        if name:
            # Also where its file is gone.
            kept = place.folder.joinpath(name).read_bytes()
            place.folder.joinpath(name).unlink()
        place.write(MATTHEW, TEXTS[MATTHEW].replace("And", f"of {name}"))
        answer = place.sync()
        tally.check(answer.status == 0 and answer.error == b"" and b"added 1 MAT\n" in answer.output, f"a project set back: {answer}")
        tally.check(place.read(MARK).encode() == place.export("MRK") and "after the copy" in place.read(MARK), "a text is gone")
        tally.check(not name or place.folder.joinpath(name).read_bytes() == kept, "a file that was removed is another one")
        tally.check(place.read(MATTHEW).encode() == place.export("MAT"), "the other book")


def check_unplaced(tally: Tally, between: Between, home: Path) -> None:
    """A file that cannot be put in its place leaves the others in theirs, and the next sync goes on, with an edit too."""
    given = home.parent / "no input"
    given.write_bytes(b"")
    for number, name in enumerate((MATTHEW, MARK), 1):
        for edited in (False, True):
            place = Place(between.program, home / f"{number}{edited}")
            # The renamings before are those of the base that stood before, of the next one, and of the project.
            ran = between.run(place.home, ["sync", "p", "texts", "bundle"], given, f"rename:{number + 3}:{errno.EPERM}")
            answer = ran.answer
            told = b"new 2\n" + CAME + b"".join(b"%s texts/%s\n" % (b"left" if it == name else b"wrote", it.encode()) for it in (MATTHEW, MARK))
            is_told = (answer.status, answer.output, answer.error) == (1, told, f"fault 130\nin texts/{name}\n".encode())
            tally.check(is_told, f"{name} cannot be replaced: {answer}")
            removed = [Path(call.on).name for call in ran.calls if call.kind == "remove" and call.answer == 0]
            tally.check(removed == ["before", "next", f"{name[2:5]}.new"], f"the removals of a file that was left: {removed}")
            if edited:
                place.write(MATTHEW, place.read(MATTHEW).replace("In", "ana"))
            answer = place.sync()
            tally.check(answer.status == 0, f"{name}, again: {answer}")
            want = {MATTHEW: TEXTS[MATTHEW].replace("And", "ben"), MARK: TEXTS[MARK].replace("The", "ben")}
            if edited:
                want[MATTHEW] = want[MATTHEW].replace("In", "ana")
            tally.check({it: place.read(it) for it in want} == want, f"{name}, again: {place.all()}")
            tally.check(wanted(place.run("report", "p")) == b"", f"{name}, again: a conflict")


def check_left_over(tally: Tally, between: Between, home: Path) -> None:
    """A new file that a sync left which was killed before it told of it is nothing; nor is what was half written."""
    place = Place(between.program, home)
    for name in ("MAT.new", "base.made", "names.made"):
        place.own.joinpath(name).write_bytes(b"half")
    place.write(MATTHEW, TEXTS[MATTHEW].replace("In", "ana"))
    answer = place.sync()
    tally.check(answer == Answer(0, b"added 1 MAT\n", b""), f"after a kill: {answer}")
    tally.check(sorted(it.name for it in place.own.iterdir()) == ["base", "days", "names"], "something stays")


def check_second_name(tally: Tally, between: Between, home: Path) -> None:
    """A project that has another name too is not changed by either."""
    place = Place(between.program, home)
    os.link(home / "p", home / "second")
    before = place.all()
    for name in ("p", "second"):
        answer = place.run("edit", name, "MAT 1:1", given=b"\\v 1 ana\n")
        tally.check(answer == Answer(1, b"", b"fault 130\n"), f"an edit of one of two names: {answer}")
        answer = place.run("sync", name, "texts", "bundle")
        tally.check(answer == Answer(1, b"", b"fault 130\n"), f"a sync of one of two names: {answer}")
    tally.check(place.all() == before, "a project of two names was changed")
    tally.check(place.run("shown", "second", "MAT 1:1").status == 0, "it can be read")
    home.joinpath("second").unlink()
    tally.check(place.run("edit", "p", "MAT 1:1", given=b"\\v 1 ana\n").status == 0, "it has one name again")


def check_kept(tally: Tally, between: Between, home: Path) -> None:
    """A project that nobody may write stays as it is."""
    place = Place(between.program, home)
    home.joinpath("p").chmod(0o444)
    before = place.all()
    for words in (["edit", "p", "MAT 1:1"], ["receive", "p", "bundle"], ["sync", "p", "texts", "bundle"], ["import", "p", f"texts/{MARK}", "new"]):
        home.joinpath("new").write_bytes(b"\\id LUK\n")
        answer = place.run(*words, given=b"\\v 1 ana\n")
        home.joinpath("new").unlink()
        tally.check(answer == Answer(1, b"", b"fault 130\n") and place.all() == before, f"{words[0]} of a kept project: {answer}")
    tally.check(place.run("receive", "p", "anas") == Answer(0, b"new 0\n", b""), "nothing is to be written")
    tally.check(place.sync() == DONE, "nothing is to be written in the folder")


def check_modes(tally: Tally, between: Between, home: Path) -> None:
    """No file has programs run as somebody else."""
    for number, mode in enumerate((0o6755, 0o4644, 0o2664, 0o1644)):
        place = Place(between.program, home / str(number))
        for path in (place.folder / MATTHEW, place.home / "p"):
            path.chmod(mode)
        answer = place.sync("bundle")
        tally.check(answer.status == 0, f"mode {mode:o}: {answer}")
        for path in (place.folder / MATTHEW, place.home / "p", place.own / "base"):
            found = path.stat().st_mode & 0o7777
            # The other book's file allows 644, and the base no more than both.
            wish = mode & (0o644 if path.name == "base" else 0o777)
            tally.check(found == wish, f"{path.name}, of mode {mode:o} before: {found:o}")


def check_waits(tally: Tally, between: Between, home: Path) -> None:
    """Who may only read a project or a folder can hold its lock: a command that waits for it says so, and goes on after it."""
    place = Place(between.program, home)
    for held in ("p", "texts"):
        handle = os.open(home / held, os.O_RDONLY)
        fcntl.flock(handle, fcntl.LOCK_EX)
        words = [between.program, "sync", "p", "texts"]
        command = subprocess.Popen(words, cwd=home, stdout=subprocess.PIPE, stderr=subprocess.PIPE)
        line = command.stderr.readline()
        tally.check(line == f"waiting for {held}, which another command is using\n".encode(), f"{held} is locked: {line}")
        tally.check(command.poll() is None, f"{held} is locked: it does not wait")
        os.close(handle)
        answer = (*command.communicate(timeout=SECONDS), command.returncode)
        tally.check(answer == (b"", b"", 0), f"{held} was locked: {answer}")
    tally.check(place.sync() == DONE, "nothing is locked, and it says something")


def check_owners(tally: Tally, between: Between, home: Path) -> None:
    """A file of another owner gives its mode to nobody; root leaves a file its owner."""
    home.parent.chmod(0o755)
    place = Place(between.program, home / "anothers")
    for path in (place.home, *place.home.rglob("*")):
        os.chown(path, SOMEBODY, SOMEBODY)
    os.chown(place.folder / MATTHEW, NOBODY, NOBODY)
    place.folder.joinpath(MATTHEW).chmod(0o6777)
    os.chown(place.folder / MARK, NOBODY, NOBODY)
    place.folder.joinpath(MARK).chmod(0o604)
    answer = place.run("sync", "p", "texts", "bundle", user=SOMEBODY)
    tally.check(answer.status == 0, f"files of another owner: {answer}")
    for path, wish in ((place.folder / MATTHEW, 0o644), (place.own / "base", 0o644), (place.folder / MARK, 0o644)):
        found = path.stat()
        is_right = (found.st_uid, found.st_mode & 0o7777) == (SOMEBODY, wish)
        tally.check(is_right, f"{path.name} of another owner: {found.st_uid} {found.st_mode:o}")
    place = Place(between.program, home / "roots")
    for path in (place.home / "p", place.folder / MATTHEW):
        os.chown(path, NOBODY, SOMEBODY)
        path.chmod(0o640)
    answer = place.sync("bundle")
    tally.check(answer.status == 0, f"by root: {answer}")
    place.folder.joinpath(MARK).chmod(0o640)
    for path in (place.home / "p", place.folder / MATTHEW, place.own / "base"):
        found = path.stat()
        is_right = (found.st_uid, found.st_gid, found.st_mode & 0o7777) == (NOBODY, SOMEBODY, 0o640)
        tally.check(is_right, f"{path.name} by root: {found.st_uid} {found.st_gid} {found.st_mode:o}")


# Those that ask for nothing of Linux's own.
PORTABLE_ACCIDENTS: list[Accident] = [
    check_no_longer_a_book,
    check_copies,
    check_removed,
    check_headless,
    check_set_back,
    check_left_over,
    check_second_name,
    check_kept,
]
