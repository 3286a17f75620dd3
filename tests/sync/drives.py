"""Disks that take less than others."""
import os
from pathlib import Path

from accidents import MARK, MATTHEW, TEXTS, Place
from between import Between
from stage import Tally, wanted


def check_network_drive(tally: Tally, between: Between, home: Path) -> None:
    """A disk that renames no file that is open, as some network drives do, takes all that a sync writes."""
    place = Place(between.program, home)
    place.home.joinpath("box").mkdir()
    given = place.home / "nothing"
    given.write_bytes(b"")
    place.write(MARK, TEXTS[MARK].replace("And", "ana"))
    run = between.run(place.home, ["sync", "p", "texts", "bundle", "--box", "box"], given, CLOSED_RENAMES="1")
    is_done = run.answer.status == 0 and place.read(MATTHEW) == TEXTS[MATTHEW].replace("And", "ben")
    tally.check(is_done and not run.answer.error, f"a disk that renames no open file: {run.answer}")
    left = place.home / "box/ana.bundle"
    tally.check(left.is_file() and left.read_bytes() == wanted(place.run("send", "--sealed", "p")), "and the copy's bundle is there")
    opened = (call for call in run.calls if call.kind == "open" and Path(call.on).name in ("bundle", MATTHEW, MARK, "base"))
    written = [call.on for call in opened if call.asked & os.O_ACCMODE != os.O_RDONLY]
    tally.check(not written, f"what is only read is opened for writing: {written}")
