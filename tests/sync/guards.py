"""What is asked before a file or a bundle undoes work, what editors do to line ends, and who begins with the same files."""
import shutil
from pathlib import Path
from typing import Callable

from accidents import CAME, DONE, MARK, MATTHEW, TEXTS, Place
from between import Between
from stage import Answer, Tally, wanted

VERSES = 14


def book(code: str, word: str, verses: int = VERSES) -> str:
    return f"\\id {code}\n\\c 1\n" + "".join(f"\\v {verse} {word} {verse}\n" for verse in range(1, verses + 1))


def added(count: int, removed: range) -> Answer:
    """The answer where so many edits of Matthew came in, by some of which these verses of chapter 1 were removed."""
    return Answer(0, b"added %d MAT\n" % count + b"".join(b"removed MAT 1:%d\n" % verse for verse in removed), b"")


Guard = Callable[[Tally, Between, Path], None]


def check_guards(tally: Tally, between: Between, work: Path, but: tuple[Guard, ...] = ()) -> None:
    plays: list[Guard] = [
        check_half_saved,
        check_fallen_out,
        check_bridged,
        check_older_copy,
        check_open_editor,
        check_alike_verse,
        check_stale_of_an_older_sync,
        check_own_words,
        check_other_translation,
        check_other_books,
        check_other_folder,
        check_same_files,
        check_line_ends,
        check_taken_back,
        check_laid,
        check_settled,
        check_settled_early,
        check_try,
    ]
    for play in plays:
        if play not in but:
            play(tally, between, work / play.__name__)


def long_place(between: Between, home: Path) -> Place:
    """A place whose Matthew has some verses."""
    place = Place(between.program, home)
    place.write(MATTHEW, book("MAT", "In"))
    wanted(place.sync())
    return place


def check_half_saved(tally: Tally, between: Between, home: Path) -> None:
    """The editor was killed half way through saving: the end is asked for, and one verse is not."""
    place = long_place(between, home)
    before = place.all()
    whole = place.read(MATTHEW)
    for kept, gone in ((12, 2), (3, 11), (0, VERSES)):
        place.write(MATTHEW, book("MAT", "In", kept))
        answer = place.sync("bundle")
        tally.check(answer == Answer(1, b"", f"fault 132 {gone}\nin texts/{MATTHEW}\n".encode()), f"{gone} verses are gone: {answer}")
    place.write(MATTHEW, whole)
    tally.check(place.all() == before, "a refused sync wrote something")
    place.write(MATTHEW, book("MAT", "In", VERSES - 1))
    tally.check(place.sync() == added(1, range(VERSES, VERSES + 1)), "one verse at the end is deleted")
    place.write(MATTHEW, book("MAT", "In", 2))
    tally.check(place.sync().error.startswith(b"fault 132 11\n"), "the rest is gone")
    tally.check(place.run("sync", "p", "texts", "--emptied") == added(11, range(3, VERSES)), "it is said to be meant")
    tally.check(place.read(MATTHEW) == book("MAT", "In", 2) == place.export("MAT").decode(), "they are not gone")


def check_fallen_out(tally: Tally, between: Between, home: Path) -> None:
    """Verses fell out of the middle of a chapter: two are asked about, by their references where all is said, and one is not."""
    place = long_place(between, home)
    whole = place.read(MATTHEW)
    place.write(MATTHEW, whole.replace("\\v 3 In 3\n", ""))
    tally.check(place.run("sync", "p", "texts", "--try") == added(1, range(3, 4)), "one verse amid the others is deleted")
    for last in (4, 11):
        kept = "".join(line for line in whole.splitlines(True) if not any(line.startswith(f"\\v {verse} ") for verse in range(3, last + 1)))
        place.write(MATTHEW, kept)
        count = last - 2
        told = f"fault 132 {count}\nin texts/{MATTHEW}\n".encode()
        tally.check(place.sync() == Answer(1, b"", told), f"{count} verses amid the others are gone")
        told += b"".join(b"empties MAT 1:%d\n" % verse for verse in range(3, last + 1))
        tally.check(place.run("sync", "p", "texts", "--try") == Answer(1, b"", told), f"which {count} verses these are")
    tally.check(place.run("sync", "p", "texts", "--emptied") == added(9, range(3, 12)), "it is said to be meant")


def check_bridged(tally: Tally, between: Between, home: Path) -> None:
    """Verses that are put under one number are not gone: a bridge covers them. What it does not cover is."""
    place = long_place(between, home)
    whole = place.read(MATTHEW)
    bridged = whole.replace("\\v 3 In 3\n\\v 4 In 4\n\\v 5 In 5\n\\v 6 In 6\n", "\\v 3-6 In 3 to 6\n")
    place.write(MATTHEW, bridged)
    tally.check(place.run("sync", "p", "texts", "--try") == added(4, range(4, 7)), "verses under one number")
    place.write(MATTHEW, bridged.replace("\\v 7 In 7\n\\v 8 In 8\n", ""))
    told = f"fault 132 2\nin texts/{MATTHEW}\nempties MAT 1:7\nempties MAT 1:8\n".encode()
    tally.check(place.run("sync", "p", "texts", "--try") == Answer(1, b"", told), "two verses after a bridge are gone")


def came_in(between: Between, home: Path) -> tuple[Place, str]:
    """A place in which three verses of ben came in, and its Matthew before that."""
    place = long_place(between, home)
    wanted(place.run("init", "bens2", "ben"))
    place.home.joinpath("all").write_bytes(wanted(place.run("send", "p")))
    wanted(place.run("receive", "bens2", "all"))
    for verse in (5, 6, 7):
        wanted(place.run("edit", "bens2", f"MAT 1:{verse}", given=f"\\v {verse} ben\n".encode()))
    place.home.joinpath("new").write_bytes(wanted(place.run("send", "bens2")))
    old = place.read(MATTHEW)
    wanted(place.sync("new"))
    return place, old


def check_older_copy(tally: Tally, between: Between, home: Path) -> None:
    """An older copy of a file is put back."""
    for number, (word, left) in enumerate((("--undone", "old"), ("--stale", "new"))):
        place, old = came_in(between, home / str(number))
        new = place.read(MATTHEW)
        before = place.all()
        place.write(MATTHEW, old)
        answer = place.sync()
        tally.check(answer == Answer(1, b"", f"fault 133 3\nin texts/{MATTHEW}\n".encode()), f"an older copy: {answer}")
        tally.check({**place.all(), f"texts/{MATTHEW}": new.encode()} == before, "a refused sync wrote something")
        answer = place.run("sync", "p", "texts", word)
        want = {"old": old, "new": new}[left]
        tally.check(answer.status == 0 and place.read(MATTHEW) == want == place.export("MAT").decode(), f"{word}: {answer}")
        tally.check(wanted(place.run("report", "p")) == b"", f"{word}: a conflict")
        tally.check(place.sync() == DONE, f"{word}: a second sync")


def check_open_editor(tally: Tally, between: Between, home: Path) -> None:
    """An editor that was open all the while saves its old text with a change."""
    place, old = came_in(between, home)
    new = place.read(MATTHEW)
    place.write(MATTHEW, old.replace("In 9", "ana 9"))
    answer = place.sync()
    tally.check(answer.error.startswith(b"fault 133 "), f"an editor with an old text: {answer}")
    answer = place.run("sync", "p", "texts", "--stale")
    want = new.replace("In 9", "ana 9")
    tally.check(answer.status == 0 and place.read(MATTHEW) == want == place.export("MAT").decode(), f"what came in and the change: {answer}")


def check_alike_verse(tally: Tally, between: Between, home: Path) -> None:
    """An editor that was open all the while has one verse as it came in, and saves its old text of the others: these stay."""
    place, old = came_in(between, home)
    new = place.read(MATTHEW)
    place.write(MATTHEW, old.replace("\\v 5 In 5\n", "\\v 5 ben\n").replace("In 9", "ana 9"))
    told = f"fault 133 2\nin texts/{MATTHEW}\n".encode()
    answer = place.sync()
    tally.check(answer == Answer(1, b"", told), f"one verse is alike: {answer}")
    answer = place.run("sync", "p", "texts", "--try")
    tally.check(answer == Answer(1, b"", told + b"undoes MAT 1:6 ben\nundoes MAT 1:7 ben\n"), f"which verses are undone: {answer}")
    answer = place.run("sync", "p", "texts", "--stale")
    want = new.replace("In 9", "ana 9")
    tally.check(answer.status == 0 and answer.output.startswith(b"added 1 MAT\n"), f"the change alone comes in: {answer}")
    tally.check(place.read(MATTHEW) == want == place.export("MAT").decode(), "what came in and the change")
    tally.check(wanted(place.run("report", "p")) == b"", "a conflict")


def check_stale_of_an_older_sync(tally: Tally, between: Between, home: Path) -> None:
    """A file is older than two syncs in which another's texts came in: it is asked about once."""
    place, old = came_in(between, home)
    wanted(place.run("edit", "bens2", "MAT 1:10", given=b"\\v 10 ben\n"))
    place.home.joinpath("newer").write_bytes(wanted(place.run("send", "bens2")))
    wanted(place.sync("newer"))
    new = place.read(MATTHEW)
    place.write(MATTHEW, old.replace("In 9", "ana 9"))
    tally.check(place.sync().error.startswith(b"fault 133 1\n"), "an old text of two syncs ago")
    answer = place.run("sync", "p", "texts", "--stale")
    want = new.replace("In 9", "ana 9")
    tally.check(answer.status == 0 and place.read(MATTHEW) == want == place.export("MAT").decode(), f"--stale: {answer}")
    tally.check(place.sync() == DONE, "a second sync")


def check_own_words(tally: Tally, between: Between, home: Path) -> None:
    """Who takes back their own words is not asked; who takes back one of another's is."""
    place, old = came_in(between, home)
    place.write(MATTHEW, place.read(MATTHEW).replace("\\v 5 ben\n", "\\v 5 In 5\n"))
    tally.check(place.sync().error.startswith(b"fault 133 1\n"), "one of three texts that came in")
    told = b"added 1 MAT\nreplaced MAT 1:5 ben\n"
    tally.check(place.run("sync", "p", "texts", "--undone") == Answer(0, told, b""), "it is meant")
    place.write(MARK, TEXTS[MARK].replace("The", "ana"))
    wanted(place.sync())
    place.write(MARK, TEXTS[MARK])
    tally.check(place.sync() == Answer(0, b"added 1 MRK\n", b""), "one's own text")


def other(between: Between, home: Path) -> Place:
    """A folder of another translation, with a project of its own."""
    place = Place.__new__(Place)
    place.program, place.home, place.folder = between.program, home, home / "others"
    place.own = place.folder / ".usfm_team"
    place.folder.mkdir(parents=True)
    place.write(MATTHEW, book("MAT", "Au"))
    wanted(place.run("init", "o", "eve"))
    wanted(place.run("sync", "o", "others"))
    home.joinpath("others.bundle").write_bytes(wanted(place.run("send", "o")))
    return place


def check_other_translation(tally: Tally, between: Between, home: Path) -> None:
    """A bundle of another translation is asked for. Of its fourteen verses one is in conflict by then."""
    place = long_place(between, home)
    other(between, home)
    before = place.all()
    answer = place.sync("bundle", "others.bundle")
    tally.check(answer == Answer(1, b"", b"fault 134 13\nin others.bundle\n"), f"another translation: {answer}")
    tally.check(place.all() == before, "a refused sync wrote something")
    answer = place.run("sync", "p", "texts", "others.bundle", "--join")
    tally.check(answer.status == 0 and answer.output.startswith(b"new 16\n"), f"it is joined: {answer}")


def check_other_books(tally: Tally, between: Between, home: Path) -> None:
    """A bundle of another translation that has other books: it makes no conflict, and is asked about all the same."""
    place = long_place(between, home)
    home.joinpath("alone").mkdir()
    home.joinpath("alone/LUK.usfm").write_text(book("LUK", "Au"))
    wanted(place.run("init", "o", "eve"))
    wanted(place.run("sync", "o", "alone"))
    home.joinpath("others.bundle").write_bytes(wanted(place.run("send", "o")))
    before = place.all()
    answer = place.sync("others.bundle")
    tally.check(answer == Answer(1, b"", b"fault 134 0\nin others.bundle\n"), f"another translation's books: {answer}")
    tally.check(place.all() == before, "a refused sync wrote something")
    answer = place.run("sync", "p", "alone")
    tally.check(answer == Answer(1, b"", b"fault 134 0\nin alone/.usfm_team/base\n"), f"the folder of another translation's books: {answer}")
    tally.check(place.all() == before, "a refused sync wrote something")
    tally.check(place.run("sync", "p", "texts", "others.bundle", "--join").status == 0, "it is joined")


def check_other_folder(tally: Tally, between: Between, home: Path) -> None:
    """The folder of another translation, by a slip in the line: its base does not come in."""
    place = long_place(between, home)
    other(between, home)
    before = place.all()
    answer = place.run("sync", "p", "others")
    tally.check(answer == Answer(1, b"", b"fault 134 14\nin others/.usfm_team/base\n"), f"another folder: {answer}")
    tally.check(place.all() == before, "a refused sync wrote something")


def check_same_files(tally: Tally, between: Between, home: Path) -> None:
    """Ben has the same files as ana, with other line ends, and begins with her bundle: nothing is made twice."""
    place = Place(between.program, home)
    bens = home / "bens texts"
    bens.mkdir()
    for name, text in TEXTS.items():
        bens.joinpath(name).write_bytes(text.replace("\n", "\r\n").encode())
    wanted(place.run("init", "b", "ben"))
    answer = place.run("sync", "b", "bens texts", "anas")
    places = ("MAT 0", "MAT 1", "MAT 1:1", "MAT 1:2", "MRK 0", "MRK 1", "MRK 1:1")
    told = b"new 7\n" + "".join(f"came {it} ana\n" for it in places).encode()
    tally.check(answer == Answer(0, told, b""), f"the same files: {answer}")
    bens.joinpath(MATTHEW).write_bytes(TEXTS[MATTHEW].replace("In", "ben").replace("\n", "\r\n").encode())
    tally.check(place.run("sync", "b", "bens texts") == Answer(0, b"added 1 MAT\n", b""), "his first edit")
    tally.check(wanted(place.run("report", "b")) == b"", "it is in conflict")


def check_line_ends(tally: Tally, between: Between, home: Path) -> None:
    """An editor saves with CR LF, or with U+FEFF: that is no change, it stays so in the file, and a change is the change alone."""
    for number, (mark, end) in enumerate((("", "\r\n"), ("\ufeff", "\n"), ("\ufeff", "\r\n"))):

        def saved(text: str) -> str:
            return mark + text.replace("\n", end)

        place = Place(between.program, home / str(number))
        place.write(MATTHEW, saved(TEXTS[MATTHEW]))
        project = home.joinpath(str(number), "p").read_bytes()
        tally.check(place.sync() == DONE and place.home.joinpath("p").read_bytes() == project, f"saved with {mark + end!r}")
        place.write(MATTHEW, saved(TEXTS[MATTHEW].replace("In", "ana")))
        answer = place.sync("bundle")
        want = TEXTS[MATTHEW].replace("In", "ana").replace("And", "ben")
        told = b"new 2\nadded 1 MAT\n" + CAME + b"wrote texts/41MAT.SFM\nwrote texts/42MRK.SFM\n"
        tally.check(answer == Answer(0, told, b""), f"changed, and {mark + end!r}: {answer}")
        tally.check(place.read(MATTHEW) == saved(want) and place.export("MAT").decode() == want, f"the file and the book, {mark + end!r}")
        tally.check(wanted(place.run("report", "p")) == b"", f"{mark + end!r}: a conflict")


def check_taken_back(tally: Tally, between: Between, home: Path) -> None:
    """A sync is killed after the project was replaced; the person takes the change back: it is not done again."""
    given = home.parent / "no input"
    given.write_bytes(b"")
    kills = 0
    for number in range(1, 40):
        place = Place(between.program, home / str(number))
        place.write(MATTHEW, TEXTS[MATTHEW].replace("In", "ana"))
        ran = between.run(place.home, ["sync", "p", "texts", "bundle"], given, f"rename:{number}:kill")
        if ran.answer.status == 0:
            break
        kills += 1
        text = place.read(MATTHEW)
        place.write(MATTHEW, text.replace("ana", "In"))
        answer = place.sync("bundle")
        want = TEXTS[MATTHEW].replace("And", "ben")
        tally.check(answer.status == 0 and place.read(MATTHEW) == want, f"killed at renaming {number}: {answer}, {place.read(MATTHEW)}")
        tally.check(place.export("MAT").decode() == want, f"killed at renaming {number}: the book")
        tally.check(wanted(place.run("report", "p")) == b"", f"killed at renaming {number}: a conflict")
    tally.check(kills > 4, f"{kills} kills")


def check_laid(tally: Tally, between: Between, home: Path) -> None:
    """What somebody else laid into the program's folder does not come in without a word."""
    place = Place(between.program, home)
    place.own.joinpath("base").write_bytes(home.joinpath("bundle").read_bytes())
    answer = place.sync()
    tally.check(answer.output.startswith(b"new 2 base\n"), f"a base that was laid there: {answer}")


def check_settled(tally: Tally, between: Between, home: Path) -> None:
    """A file settles a conflict, as it is or changed; what came in since it was written stays."""
    for number, changed in enumerate((False, True)):
        place = Place(between.program, home / str(number))
        place.write(MATTHEW, TEXTS[MATTHEW].replace("And", "ana"))
        wanted(place.sync())
        answer = place.sync("bundle")
        tally.check(b"conflicts 1\nconflict MAT 1:2\n" in answer.output, f"a conflict: {answer}")
        shown = place.read(MATTHEW)
        if changed:
            place.write(MATTHEW, shown.replace("\\v 2 ben", "\\v 2 both").replace("\\v 2 ana", "\\v 2 both"))
        want = place.read(MATTHEW)
        answer = place.run("sync", "p", "texts", "--settle", "MAT 1:2")
        tally.check(answer == Answer(0, b"added 1 MAT\nreplaced MAT 1:2 ben\n", b""), f"it is settled: {answer}")
        tally.check(place.read(MATTHEW) == want == place.export("MAT").decode(), "the text is another one")
        tally.check(place.run("sync", "p", "texts", "--settle", "MAT") == DONE, "there is nothing left to settle")


def check_settled_early(tally: Tally, between: Between, home: Path) -> None:
    """A sync is killed that was to settle a conflict: the same line again does not settle what came in with it, which nobody has seen."""
    given = home.parent / "no input"
    given.write_bytes(b"")
    kinds = {"refused": 0, "done": 0}
    for number in range(1, 40):
        place = Place(between.program, home / str(number))
        place.write(MATTHEW, TEXTS[MATTHEW].replace("And", "ana"))
        wanted(place.sync())
        line = ["sync", "p", "texts", "bundle", "--settle", "MAT 1:2"]
        ran = between.run(place.home, line, given, f"rename:{number}:kill")
        if ran.answer.status == 0:
            break
        answer = place.run(*line)
        is_refused = answer == Answer(1, b"", b"fault 135\nin texts/.usfm_team/next\n")
        kinds["refused" if is_refused else "done"] += 1
        # Where the project was not changed yet, the sync begins anew.
        tally.check(is_refused or answer.status == 0, f"killed at renaming {number}: {answer}")
        wanted(place.sync("bundle"))
        tally.check(b"ben" in place.run("shown", "p", "MAT 1:2").output, f"killed at renaming {number}: ben's text is settled over, unseen")
    tally.check(all(kinds.values()), f"{kinds}")


def check_try(tally: Tally, between: Between, home: Path) -> None:
    """To try says what is done, and does nothing."""
    place = Place(between.program, home)
    home.joinpath("box").mkdir()
    shutil.copy(home / "bundle", home / "box/ben.bundle")
    place.write(MATTHEW, TEXTS[MATTHEW].replace("In", "ana"))
    before = place.all()
    tried = place.run("sync", "p", "texts", "--box", "box", "--try")
    tally.check(place.all() == before, "to try writes something")
    done = place.run("sync", "p", "texts", "--box", "box")
    front = b"new 2 box/ben.bundle\nadded 1 MAT\n" + CAME + b"wrote "
    tally.check(tried == done and done.output.startswith(front), f"{tried}, and {done}")
