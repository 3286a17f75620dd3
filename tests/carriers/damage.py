"""A box of 300 sealed bundles, in each of which one bit was turned over on its way. Each is passed over, and said, whatever field of it the bit
lies in; sent again, by what carried it or by the next sync of whoever wrote it, each comes in."""
import random
import re
from pathlib import Path

from stage import Answer, Tally, run, wanted

COPIES = 300
# How many of them write their bundle again by a sync of their own; the others' is carried once more.
OWNERS = 12
# Where the fields of a sealed bundle begin: docs/FORMATS.md.
MAGIC, LENGTH, DIGEST, BUNDLE = 0, 8, 16, 48
# A damaged one whose magic is another one is judged as it stands: it is no bundle, or one without a seal, of which the first edit is wrong.
FAULTS = {False: {"72"}, True: {"60", "63 1"}}
TIP = b"The bundle was damaged on its way, or is not whole.\nHave it sent again."
BOOK = "\\id MAT\n\\c 1\n" + "".join(f"\\v {verse} In {verse}\n" for verse in range(1, COPIES + 1))


def check_damage(tally: Tally, program: Path, home: Path, seed: int) -> None:
    chance = random.Random(seed)
    box = home / "box"
    box.mkdir(parents=True)
    whole = begin_copies(program, home, [f"c{number:03}" for number in range(COPIES)])
    damaged = {name: turned_over(chance, data, number) for number, (name, data) in enumerate(whole.items())}
    for name, data in damaged.items():
        box.joinpath(f"{name}.bundle").write_bytes(data)

    def sync(*words: str) -> Answer:
        return run(program, home, ["sync", "p", "texts", "--box", "box", *words])

    answer = sync("--exit-code")
    tally.check((answer.status, answer.output) == (4, b""), f"damaged bundles: {answer.status} {answer.output!r}")
    said = dict(re.findall(r"^skipped box/(\w+)\.bundle fault (\d+(?: \d+)?)$", answer.error.decode(), re.M))
    tally.check(len(answer.error.splitlines()) == COPIES, f"what is said of damage: {answer.error[-300:]!r}")
    for name, data in damaged.items():
        has_other_magic = data[:LENGTH] != whole[name][:LENGTH]
        tally.check(said.get(name) in FAULTS[has_other_magic], f"{name} is damaged: fault {said.get(name)}")
    tally.check(TIP in sync("--explain").error, "what is said of fault 72")
    book = wanted(run(program, home, ["export", "p", "MAT"]))
    tally.check(book == BOOK.encode(), "something of a damaged bundle is in the project")

    owners = chance.sample([name for name, data in damaged.items() if data[:LENGTH] == whole[name][:LENGTH]], OWNERS)
    for name, data in whole.items():
        if name in owners:
            data = left_again(tally, program, home / "copies" / name, f"{name}.bundle", damaged[name], data)
        box.joinpath(f"{name}.bundle").write_bytes(data)
    answer = sync()
    came = re.findall(r"^new 1 box/(\w+)\.bundle$", answer.output.decode(), re.M)
    tally.check((answer.status, came, answer.error) == (0, list(whole), b""), f"sent again: {answer.error!r} {answer.output[-300:]!r}")
    wrote = "".join(f"\\v {number} {name}\n" for number, name in enumerate(whole, 1))
    book = home.joinpath("texts/MAT.usfm").read_text()
    tally.check(book == f"\\id MAT\n\\c 1\n{wrote}", f"the book when all was sent again: {book[-300:]!r}")
    tally.check(wanted(run(program, home, ["report", "p"])) == b"", "a damaged bundle has left something in the report")


def begin_copies(program: Path, home: Path, names: list[str]) -> dict[str, bytes]:
    """A project with a book, and the sealed bundles of copies of it, each of which has one verse of its own writing."""
    home.joinpath("texts").mkdir()
    home.joinpath("texts/MAT.usfm").write_text(BOOK)
    wanted(run(program, home, ["init", "p", "ana"]))
    wanted(run(program, home, ["sync", "p", "texts"]))
    home.joinpath("first").write_bytes(wanted(run(program, home, ["send", "p"])))
    bundles = {}
    for verse, name in enumerate(names, 1):
        place = home / "copies" / name
        place.joinpath("texts").mkdir(parents=True)
        wanted(run(program, place, ["init", "p", name]))
        wanted(run(program, place, ["receive", "p", str(home / "first")]))
        wanted(run(program, place, ["edit", "p", f"MAT 1:{verse}"], f"\\v {verse} {name}\n".encode()))
        bundles[name] = wanted(run(program, place, ["send", "--sealed", "p"]))
    return bundles


def turned_over(chance: random.Random, data: bytes, number: int) -> bytes:
    """One bit is another one: in turn of the magic, the length, the digest, the bundle, and its last byte."""
    first, after = [(MAGIC, LENGTH), (LENGTH, DIGEST), (DIGEST, BUNDLE), (BUNDLE, len(data)), (len(data) - 1, len(data))][number % 5]
    changed = bytearray(data)
    changed[chance.randrange(first, after)] ^= 1 << chance.randrange(8)
    return bytes(changed)


def left_again(tally: Tally, program: Path, place: Path, name: str, damaged: bytes, whole: bytes) -> bytes:
    """The owner's own bundle was damaged in the box: the owner's next sync says so, and leaves it whole."""
    place.joinpath("box").mkdir()
    place.joinpath("box", name).write_bytes(damaged)
    answer = run(program, place, ["sync", "p", "texts", "--box", "box"])
    is_said = answer.error.startswith(f"skipped box/{name}".encode()) and answer.error.count(b"\n") == 1
    tally.check(answer.status == 0 and is_said and b"new" not in answer.output, f"{name}: its owner's next sync: {answer}")
    left = place.joinpath("box", name).read_bytes()
    tally.check(left == whole, f"{name} is not whole after its owner's next sync")
    return left
