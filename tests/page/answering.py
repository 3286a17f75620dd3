"""Answers that are given on a page in a browser, byte for byte, and settled."""
import json
import re
import time
from pathlib import Path
from typing import Optional, Union

from browser import Browser
from firefox import Firefox
from reporting import Tally
from team import Answer, Team

SECONDS = 30
# A text of one's own with quotes, a backslash of its own, marks, HTML, right-to-left words and a letter above U+FFFF.
OWN = "\\v 1 \"As\" it's \\\\ \\nd so\\nd* <b>&amp;</b> \u05d1\u05bc\u05b0\u05e8\u05b5\u05d0\u05e9\u05c1\u05b4\u05d9\u05ea \U0001f54a"
REMARK = "Ask Cy: \"why \\v 3?\" \u05d0\u05d1"
Window = Union[Browser, Firefox]


def check_answering(tally: Tally, browser: Window, program: Path, work: Path) -> None:
    """Three conflicts: a text of one's own, a text that is taken, and one that waits, with a remark."""
    name = type(browser).__name__
    team = conflicting(program, work / f"answering in {name}")
    page = team.folder / "page.html"
    browser.saves_in(team.folder)
    check_without_script(tally, browser, page)
    browser.show(page)
    wanted = sorted(("radio", f"MAT 1:{verse}: {words}") for verse in (1, 2, 3) for words in words_of(verse))
    found = sorted((role, words.strip()) for role, words in browser.buttons())
    tally.check(found == wanted, f"{name}: the buttons are {found}")
    field = browser.value("document.querySelector('textarea').value")
    tally.check(field == "\\v 1 At\n", f"{name}: the field of an own text has {field!r}")
    tally.check(told(browser) == "0 of 3 answered", f"{name}: it says {told(browser)!r}")
    typed(browser, 0, "textarea", OWN)
    choose(browser, 1, "7:ana")
    typed(browser, 2, "[type=text]", REMARK)
    # What was ticked is there again, on a second page too.
    (team.folder / "again.html").write_bytes(page.read_bytes())
    for shown in (page, team.folder / "again.html") if name == "Browser" else (page,):
        browser.show(shown)
        tally.check(told(browser) == "3 of 3 answered", f"{name}: {shown.name} says {told(browser)!r}")
    browser.value("document.querySelector('button').click()")
    file = saved(team.folder)
    own, remark = f"{OWN}\n".encode(), REMARK.encode()
    wanted_bytes = b"USFM answers 1\nconflict MAT 1:1 6:ben 6:ana\ntext %d\n%s\n" % (len(own), own)
    wanted_bytes += b"conflict MAT 1:2 7:ben 7:ana\ntake 7:ana\n"
    wanted_bytes += b"conflict MAT 1:3 8:ben 8:ana\nremark %d\n%s\n" % (len(remark), remark)
    written = file.read_bytes() if file else None
    tally.check(written == wanted_bytes, f"{name}: the file of answers is {written!r}")
    is_named = file is not None and bool(re.fullmatch(r"ana-\d{4}-\d\d-\d\d\.answers", file.name))
    tally.check(is_named, f"{name}: the file is named {file}")
    tally.check(not browser.faults(), f"{name}: {browser.faults()[:3]}")
    if file:
        check_settled(tally, team, file, own, remark)


def check_without_script(tally: Tally, browser: Window, page: Path) -> None:
    """Where no script runs, each text has a box to tick, and nothing else is there."""
    browser.runs_scripts(False)
    browser.show(page)
    wanted = [("checkbox", words) for _ in range(3) for words in ("Text 1", "Text 2")]
    tally.check(browser.buttons() == wanted, f"{type(browser).__name__}: without a script the buttons are {browser.buttons()}")
    browser.runs_scripts(True)


def words_of(verse: int) -> "list[str]":
    """The names of the buttons of a verse."""
    return [f"Text 1: \\v {verse} At", f"Text 2: \\v {verse} In", "A text of my own", "Not now"]


def told(browser: Window) -> str:
    """How many are answered, as the page says it."""
    return str(browser.value("document.querySelector('[role=status]').textContent")).strip()


def conflicting(program: Path, folder: Path) -> Team:
    """A team of which one copy has three conflicts, and its page."""
    team = Team(program, folder)
    team.begin("ana", "ben")
    for verse in (1, 2, 3):
        one, other = (b"\\v %d %s\n" % (verse, word) for word in (b"In", b"At"))
        team.differ(f"MAT 1:{verse}", one, other, "ana", "ben")
    (folder / "page.html").write_bytes(team.do("page", "ana"))
    return team


def check_settled(tally: Tally, team: Team, file: Path, own: bytes, remark: bytes) -> None:
    """`settle` takes the file in, and a second time nothing of it."""
    said = b"remark MAT 1:3 %d\n%s\n" % (len(remark), remark)
    answer = team.answer("settle", "ana", "--answers", file.name)
    tally.check(answer == Answer(0, said + b"settled 2\nleft 0\n"), f"the file is settled as {answer}")
    book = team.do("export", "ana", "MAT")
    tally.check(own in book and b"\\v 2 In\n" in book and b"\\v 3 At\n" in book, f"the book is {book!r}")
    answer = team.answer("settle", "ana", "--answers", file.name)
    left = b"left MAT 1:1\nleft MAT 1:2\n" + said + b"settled 0\nleft 2\n"
    tally.check(answer == Answer(0, left), f"a second time it is settled as {answer}")


def choose(browser: Window, place: int, value: str) -> None:
    """Clicks the button of this value in a conflict."""
    browser.value(f"document.querySelectorAll('fieldset')[{place}].querySelector('[value={json.dumps(value)}]').click()")


def typed(browser: Window, place: int, field: str, text: str) -> None:
    """Gives a field of a conflict a text."""
    here = f"document.querySelectorAll('fieldset')[{place}].querySelector('{field}')"
    event = "new Event('input', { bubbles: true })"
    browser.value(f"({here}.value = {json.dumps(text)}, {here}.dispatchEvent({event}))")


def saved(folder: Path) -> Optional[Path]:
    """The file of answers that the browser saves, when it is whole."""
    for _ in range(SECONDS * 10):
        found = [it for it in folder.glob("*.answers") if it.stat().st_size]
        if found and not [*folder.glob("*.crdownload"), *folder.glob("*.part")]:
            return found[0]
        time.sleep(0.1)
    return None
