"""A box that a team shares: a week of it, and what lies in it that keeps nobody from the rest."""
import random
import re
import shutil
from pathlib import Path
from typing import Callable

from accidents import CAME, MATTHEW, TEXTS, Place
from between import Between
from guards import book as book_text, long_place
from model.bundles import read_whole_bundle, seal, write_bundle
from model.operations import Operation
from model.references import Id, read_ref
from stage import Answer, Tally, wanted

BoxPlay = Callable[[Tally, Between, Path], None]


def check_boxes(tally: Tally, between: Between, work: Path) -> None:
    plays: list[BoxPlay] = [check_week, check_bad_bundles, check_damaged_bundles, check_one_name, check_another_project]
    for play in plays:
        play(tally, between, work / "boxes" / play.__name__)


def came_lines(name: str, *places: str) -> bytes:
    """What is said of segments in which something of one copy came in."""
    return "".join(f"came {place} {name}\n" for place in places).encode()


def check_week(tally: Tally, between: Between, home: Path) -> None:
    """Two people share a folder for a week; one conflict is settled by a file. Nobody's bundle is written by another."""
    home.joinpath("box").mkdir(parents=True)
    places = {}
    for name in ("ana", "ben"):
        place = Place.__new__(Place)
        place.program, place.home, place.folder = between.program, home, home / name
        place.own = place.folder / ".usfm_team"
        place.folder.mkdir()
        wanted(place.run("init", f"{name}.project", name))
        places[name] = place
    ana, ben = places["ana"], places["ben"]

    def sync(name: str, *words: str) -> bytes:
        return wanted(ana.run("sync", f"{name}.project", name, "--box", "box", *words))

    ana.write(MATTHEW, book_text("MAT", "In"))
    tally.check(sync("ana") == b"added 16 MAT\n", "the first day of ana")
    came = came_lines("ana", "MAT 0", "MAT 1", *(f"MAT 1:{verse}" for verse in range(1, 15)))
    told = sync("ben", "--names", "42MRKben.SFM")
    tally.check(told == b"new 16 box/ana.bundle\n" + came + b"wrote ben/41MATben.SFM\n", f"the first day of ben: {told}")
    bens = "41MATben.SFM"
    ben.write(bens, ben.read(bens).replace("In 3", "ben 3").replace("In 8", "ben 8"))
    ana.write(MATTHEW, ana.read(MATTHEW).replace("In 3", "ana 3").replace("In 5", "ana 5"))
    tally.check(sync("ben") == b"new 0 box/ana.bundle\nadded 2 MAT\n", "ben's edits")
    told = sync("ana")
    front = b"new 2 box/ben.bundle\nadded 2 MAT\n" + came_lines("ben", "MAT 1:3", "MAT 1:8") + b"wrote "
    tally.check(told.startswith(front) and told.endswith(b"conflicts 1\nconflict MAT 1:3\n"), f"{told}")
    ana.write(MATTHEW, ana.read(MATTHEW).replace("ben 3", "both 3").replace("ana 3", "both 3"))
    told = sync("ana", "--settle", "MAT 1:3")
    tally.check(told == b"new 0 box/ben.bundle\nadded 1 MAT\nreplaced MAT 1:3 ben\n", f"the conflict is settled: {told}")
    told = sync("ben")
    came = came_lines("ana", "MAT 1:3", "MAT 1:5")
    tally.check(told == b"new 3 box/ana.bundle\n" + came + b"wrote ben/41MATben.SFM\n", f"ben gets it: {told}")
    sync("ana")
    want = book_text("MAT", "In").replace("In 3", "both 3").replace("In 5", "ana 5").replace("In 8", "ben 8")
    tally.check(ana.read(MATTHEW) == ben.read(bens) == want, "the books differ")
    boxes = sorted(it.name for it in home.joinpath("box").iterdir())
    tally.check(boxes == ["ana.bundle", "ben.bundle"], f"in the box: {boxes}")
    # Who lost the project and the folder begins anew with what the box has, under another name.
    shutil.rmtree(ben.folder)
    home.joinpath("cy").mkdir()
    wanted(ana.run("init", "cy.project", "cy"))
    told = sync("cy")
    tally.check(home.joinpath("cy/MAT.usfm").read_text() == want, f"a newcomer: {told}")


def team_place(between: Between, home: Path) -> Place:
    """A place with a box, in which ben's bundle lies."""
    place = Place(between.program, home)
    home.joinpath("box").mkdir()
    shutil.copy(home / "bundle", home / "box/ben.bundle")
    return place


def clashing(place: Place) -> bytes:
    """A bundle in which ben's first edit has another text."""
    wanted(place.run("init", "again", "ben"))
    wanted(place.run("receive", "again", "anas"))
    wanted(place.run("edit", "again", "MAT 1:2", given=b"\\v 2 other\n"))
    return wanted(place.run("send", "again"))


def sync_with_box(place: Place, *words: str) -> Answer:
    return place.run("sync", "p", "texts", "--box", "box", *words)


def check_bad_bundles(tally: Tally, between: Between, home: Path) -> None:
    """What is no bundle, was cut, or clashes is skipped with its fault, and the other bundles come in; a name on the line refuses all."""
    place = team_place(between, home)
    box = home / "box"
    bundle = box.joinpath("ben.bundle").read_bytes()
    bad = {
        "a.bundle": (bundle[:-1], "61"),
        "book.bundle": (TEXTS[MATTHEW].encode(), "60"),
        "clash.bundle": (clashing(place), "51 8 ben"),
        "empty.bundle": (b"", "61"),
        "more.bundle": (bundle + b"x", "70"),
        "zeros.bundle": (bytes(len(bundle)), "60"),
    }
    for name, (data, _) in bad.items():
        box.joinpath(name).write_bytes(data)
    said = "".join(f"skipped box/{name} fault {fault}\n" for name, (_, fault) in bad.items()).encode()
    told = b"new 2 box/ben.bundle\n" + CAME + b"wrote texts/41MAT.SFM\nwrote texts/42MRK.SFM\n"
    tally.check(sync_with_box(place, "--try") == Answer(0, told, said), "bundles that cannot be taken in, to try")
    answer = sync_with_box(place)
    tally.check(answer == Answer(0, told, said), f"bundles that cannot be taken in: {answer}")
    tally.check(box.joinpath("ana.bundle").read_bytes() == wanted(place.run("send", "--sealed", "p")), "the copy's own bundle")
    answer = sync_with_box(place, "--explain")
    wanted_lines = [b"skipped box/a.bundle fault 61", b"The bundle is truncated: its end is missing."]
    tally.check(answer.status == 0 and answer.error.splitlines()[:2] == wanted_lines, f"what the faults mean: {answer}")
    for name, (data, fault) in bad.items():
        answer = sync_with_box(place, f"box/{name}")
        is_refused = answer.status == 1 and answer.error.endswith(f"fault {fault}\nin box/{name}\n".encode())
        tally.check(is_refused, f"{name} on the line: {answer}")


def check_damaged_bundles(tally: Tally, between: Between, home: Path) -> None:
    """Of 300 sealed bundles in each of which one bit was turned over, each is passed over, and said; sent again, each comes in."""
    place = Place(between.program, home)
    box = home / "box"
    box.mkdir()
    chance = random.Random(300)
    held = read_whole_bundle(wanted(place.run("send", "p")))
    book, key = read_ref("MAT 1:1")
    replaced = max(id for id, it in held.items() if (it.book, it.key) == (book, key))
    bundles = {}
    for number in range(300):
        id = Id(replaced.number + 1, f"c{number:03}")
        edit = Operation(id, book, key, (replaced,), b"\\v 1 %d\n" % number)
        data = bytearray(seal(write_bundle({**held, id: edit})))
        bundles[f"{id.name}.bundle"] = bytes(data)
        data[chance.randrange(len(data))] ^= 1 << chance.randrange(8)
        box.joinpath(f"{id.name}.bundle").write_bytes(data)
    answer = sync_with_box(place)
    said = re.findall(rb"^skipped box/(c\d+\.bundle) fault (\d+)", answer.error, re.M)
    tally.check(sorted(it.decode() for it, _ in said) == sorted(bundles) and len(answer.error.splitlines()) == 300, f"what is said: {said}")
    tally.check(answer.status == 0 and b"new" not in answer.output, f"a damaged bundle comes in: {answer.output}")
    tally.check({fault for _, fault in said} <= {b"60", b"61", b"72"}, f"the faults: {said}")
    for name, data in bundles.items():
        box.joinpath(name).write_bytes(data)
    answer = sync_with_box(place)
    came = re.findall(rb"^new 1 box/(c\d+\.bundle)$", answer.output, re.M)
    tally.check([it.decode() for it in came] == sorted(bundles) and answer.error == b"", f"sent again: {answer}")


def check_one_name(tally: Tally, between: Between, home: Path) -> None:
    """One person works on two computers under one name: of the two bundles the others get one, and are told of the other."""
    place = Place(between.program, home)
    home.joinpath("box").mkdir()
    for number, word in enumerate(("one", "two")):
        shutil.copy(home / "bens", home / word)
        wanted(place.run("edit", word, "MAT 1:1", given=b"\\v 1 %s\n" % word.encode()))
        home.joinpath(f"box/ben {number}.bundle").write_bytes(wanted(place.run("send", word)))
    answer = sync_with_box(place)
    tally.check(answer.error == b"skipped box/ben 1.bundle fault 51 10 ben\n", f"two computers of one name: {answer}")
    front = b"new 3 box/ben 0.bundle\n" + came_lines("ben", "MAT 1:1", "MAT 1:2", "MRK 1:1") + b"wrote "
    tally.check(answer.status == 0 and answer.output.startswith(front), f"the first one comes in: {answer}")
    tally.check("\\v 1 one\n" in place.read(MATTHEW), "the first one's text")


def check_another_project(tally: Tally, between: Between, home: Path) -> None:
    """The bundle of another translation in the box is skipped, until it is meant. Nobody is kept from the others."""
    place = team_place(between, home)
    other = home / "other"
    other.mkdir()
    wanted(place.run("init", "o", "eve"))
    for code, conflicts in (("MAT", 2), ("LUK", 0)):
        other.joinpath(f"{code}.usfm").write_text(book_text(code, "Au", 2))
        wanted(place.run("sync", "o", "other"))
        home.joinpath("box/a.bundle").write_bytes(wanted(place.run("send", "o")))
        answer = sync_with_box(place, "--try")
        told = b"new 2 box/ben.bundle\n" + CAME + b"wrote texts/41MAT.SFM\nwrote texts/42MRK.SFM\n"
        said = b"skipped box/a.bundle fault 134 %d\n" % conflicts
        tally.check(answer == Answer(0, told, said), f"another translation's {code} in the box: {answer}")
        other.joinpath(f"{code}.usfm").unlink()
        shutil.rmtree(other / ".usfm_team")
        home.joinpath("o").unlink()
        wanted(place.run("init", "o", "eve"))
    answer = sync_with_box(place)
    tally.check(b"LUK" not in home.joinpath("box/ana.bundle").read_bytes(), "what is skipped goes to the others")
    answer = sync_with_box(place, "--join")
    came = came_lines("eve", "LUK 0", "LUK 1", "LUK 1:1", "LUK 1:2")
    joined = b"new 4 box/a.bundle\nnew 0 box/ben.bundle\n" + came + b"wrote texts/43LUK.SFM\n"
    tally.check(answer == Answer(0, joined, b""), f"it is meant: {answer}")
