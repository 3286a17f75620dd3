"""Projects, each with its page beside what other commands say of it."""
from pathlib import Path

from reading import Conflict, Page, read_page, shown
from reporting import Tally
from team import Team, teams

HEBREW = "\u05d1\u05bc\u05b0\u05e8\u05b5\u05d0\u05e9\u05c1\u05b4\u05d9\u05ea"
# Texts that differ, each pair for one conflict: HTML, right-to-left text, control characters, marks, long words,
# characters that HTML does not permit, and line ends.
PAIRS = [
    (
        "\\v 1 <script>alert(1)</script> <b onclick='x()'>b</b> &amp; &#60; &lt;i&gt; \"q\"\n",
        "\\v 1 </p></article><h1>x</h1> <!-- & -->\n",
    ),
    (f"\\v 1 {HEBREW} \u202e\u05d0\u05d1\u202c a\n", f"\\v 1 {HEBREW} b\n"),
    ("\\v 1 a\x1b[7mb\x7f\x85c\td\x0be\n", "\\v 1 a\x1b[0mb\n"),
    ("\\v 1 \\nd LORD\\nd* said\\f + \\ft note\\f* so\n", "\\v 1 \\nd God\\nd* said so\n"),
    ("\\v 1 " + "w" * 3000 + "\n", "\\v 1 " + "\u05d0" * 3000 + " \U0001f54a\n"),
    ("\\v 1 a\u2066b\u2069 \ufdd0\ufdef\n", "\\v 1 \ufffe\uffff \U0001fffe\U0010ffff\n"),
    ("\\v 1 At it\r\n", "\\v 1 At it\n"),
    ("\\v 1 In it\n", "\n"),
]


def check_projects(tally: Tally, program: Path, work: Path) -> list[Path]:
    """Compares the page of each project, and answers where the pages lie."""
    pages = []
    for number, team in enumerate(teams(program, work, "page")):
        if number > len(PAIRS) + 2:
            check_refused(tally, team)
            return pages
        name = begin(team, number)
        data = team.do("page", name)
        (team.folder / "page.html").write_bytes(data)
        pages.append(team.folder / "page.html")
        compare(tally, team, name, read_page(data), f"project {number}")
    return pages


def check_refused(tally: Tally, team: Team) -> None:
    """Nothing is written of what is no project."""
    team.begin("ana")
    for name, fault in (("book", b"fault 110\n"), ("none", b"fault 120\n")):
        answer = team.answer("page", name)
        is_right = answer.status == 1 and not answer.output and answer.error.startswith(fault)
        tally.check(is_right, f"the page of {name} is {answer}")


def begin(team: Team, number: int) -> str:
    """A project of its own kind by its number."""
    team.begin("ana", "ben")
    if number < len(PAIRS):
        one, other = (it.encode() for it in PAIRS[number])
        team.differ("MAT 1:1", one, other if other.strip() else b"", "ana", "ben")
    elif number == len(PAIRS):
        team.do("init", "none", "none")
        return "none"
    elif number == len(PAIRS) + 1:
        several(team)
    else:
        awaiting(team)
    return "ana"


def several(team: Team) -> None:
    """Several books, a conflict in each place, three texts in one, and one text twice."""
    (team.folder / "luke").write_bytes(b"\\id LUK\n\\c 2\n\\v 1-2 So\n\\v 4\n\\c 3\n\\v 1\n\\v 2\n\\v 3 x\n")
    team.do("import", "ana", "luke")
    team.tell("ana", "ben")
    team.do("init", "cy", "cy")
    team.tell("ana", "cy")
    for name, text in (("ana", b"\\v 2 a\n"), ("ben", b"\\v 2 b\n"), ("cy", b"\\v 2 a\n")):
        team.edit(name, "MAT 1:2", text)
        team.edit(name, "LUK 3:1", b"\\v 1 " + name.encode() + b"\n")
        team.edit(name, "LUK 2", b"" if name == "ana" else b"\\c 2\n\\s " + name.encode() + b"\n")
    team.tell("ben", "ana")
    team.tell("cy", "ana")
    team.do("thin", "ana")


def awaiting(team: Team) -> None:
    """An operation that is named has not come."""
    team.edit("ben", "MAT 1:3", b"\\v 3 one\n")
    (team.folder / "held").write_bytes(team.do("summary", "ben"))
    team.edit("ben", "MAT 1:3", b"\\v 3 two\n")
    (team.folder / "delta").write_bytes(team.do("delta", "ben", "held"))
    team.do("receive", "ana", "delta")


def compare(tally: Tally, team: Team, name: str, page: Page, where: str) -> None:
    """Compares a page with what `status`, `progress` and `report` say."""
    tally.check(not page.faults, f"{where}: the page is wrong: {page.faults[:3]}")
    status = [it.split(" ", 1) for it in team.do("status", name).decode().splitlines()]
    tally.check(page.rows == rows_of(status), f"{where}: the rows are {page.rows}, and {status} is said")
    progress = team.do("progress", name).decode().splitlines()
    tally.check(page.chapters == progress, f"{where}: {page.chapters} is shown of {progress}")
    tally.check(page.shades == [shade(it) for it in progress], f"{where}: the shades are {page.shades}")
    awaited = [it[1].split() for it in status if it[0] == "awaited"]
    tally.check(page.awaited == [f"By {it[1]}, operation {it[0]}" for it in awaited], f"{where}: {page.awaited} is awaited")
    counts = [f"Conflicts: {len(page.conflicts)}", f"Awaited: {len(awaited)}"]
    tally.check(page.counts == counts, f"{where}: the headings are {page.counts}")
    wanted = reported(team.do("report", name))
    tally.check([it.name for it in page.conflicts] == [it[0] for it in wanted], f"{where}: other conflicts than {wanted}")
    for conflict, (reference, texts) in zip(page.conflicts, wanted):
        tally.check(is_told(conflict, texts), f"{where}: {reference} is told as {conflict}")
        lines = [it.split() for it in team.do("shown", name, reference).split(b"\n") if it.startswith(b"op ")]
        ids = sorted(b":".join(it[1:3]).decode() for it in lines)
        tally.check(sorted(conflict.ids) == ids, f"{where}: {reference} has the ids {conflict.ids}, and {ids} are shown")
        tally.check(is_placed(team, name, conflict), f"{where}: {reference} is placed as {conflict}")
    tally.check(page.boxes == sum(len(it.texts) for it in page.conflicts), f"{where}: {page.boxes} boxes")


def rows_of(status: list[list[str]]) -> list[tuple[str, str]]:
    """The rows of a page, by the lines of `status`."""
    said = dict(it for it in status if it[0] not in ("conflict", "awaited"))
    numbers = said.get("books", "0").split(", verses ")
    replaced = said.get("replaced", "0").removesuffix(" without their texts").split(", of these ")
    rows = [("Copy", said["copy"]), ("Books", numbers[0]), ("Verses with a text", (numbers + ["0"])[1])]
    rows += [(f"Texts by {it.split()[0]}", it.split()[1]) for it in said.get("shown", "").split(", ") if it]
    rows += [("Texts replaced", replaced[0]), ("Of these without their texts", (replaced + ["0"])[1])]
    for word, name in (("conflict", "Conflicts"), ("awaited", "Awaited")):
        rows.append((name, str(sum(it[0] == word for it in status))))
    return rows


def shade(line: str) -> str:
    """The shade of a chapter, by its line of `progress`."""
    written, verses = int(line.split()[2]), int(line.split()[4])
    for share, name in ((1, "all"), (2 / 3, "most"), (1 / 3, "some")):
        if written >= share * verses:
            return name
    return "few" if written else "none"


def reported(report: bytes) -> list[tuple[str, list[tuple[str, str]]]]:
    """The conflicts of a report, each with its ids and texts."""
    found: list[tuple[str, list[tuple[str, str]]]] = []
    while report:
        line, report = report.split(b"\n", 1)
        words = line.decode().split(" ")
        if words[0] == "conflict":
            found.append((" ".join(words[1:-1]), []))
        elif words[0] == "text":
            length = int(words[3])
            found[-1][1].append((f"by {words[2]}, operation {words[1]}", report[:length].decode()))
            report = report[length + 1 :]
    return found


def is_told(conflict: Conflict, texts: list[tuple[str, str]]) -> bool:
    """Whether a conflict has these texts, the first one picked, and what is not marked stands in the first, too."""
    told = [(it.label, it.by, it.text, it.is_picked) for it in conflict.texts]
    wanted = [(f"Text {number}", by, shown(text), number == 1) for number, (by, text) in enumerate(texts, 1)]
    first = conflict.texts[0]
    return (
        told == wanted
        and first.kept == conflict.texts[1].kept
        and all(is_within(it.kept, first.text) for it in conflict.texts)
    )


def is_within(part: str, text: str) -> bool:
    """Whether the characters of a part stand in a text, in their order."""
    left = iter(text)
    return all(it in left for it in part)


def is_placed(team: Team, name: str, conflict: Conflict) -> bool:
    """Whether the texts before and after a conflict stand around its first text in the export of its book."""
    book = shown(team.do("export", name, conflict.name[:3]).decode())
    first = conflict.texts[0].text
    return f"{conflict.before}{first}{conflict.after}" in book and (first == "" or conflict.before != "" or book.startswith(first))
