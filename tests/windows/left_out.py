"""What is not played on the program for Windows, and why."""
import re
from dataclasses import replace

from playing import Play, Row

LINK = "wine takes a link to a file for the file"
USER = "wine has one user"
NAME = "Windows has no such name"
WORD = "the words of a line are UTF-16, so that none is without its letters"
MODE = "a file has no mode"
TERMINAL = "it is a terminal of Linux's"

# A row that needs something of Linux's own: it is left out, and so is what follows it in its play.
FROM = [
    (re.compile(r"\bln -s (?!missing dangling)"), LINK),
    (re.compile(r"\bnobody "), USER),
    (re.compile(r"\$'\\(377|033)+'\.sfm"), NAME),
    (re.compile(r"\$'\w+\\n\w+ \w+"), NAME),
    (re.compile(r"^\$ usfm_team .*\$'\w*\\377'"), WORD),
    (re.compile(r"\bpty\."), TERMINAL),
]
# One that only looks at something of Linux's own.
ALONE = [(re.compile(r"^\$ stat -c %a "), MODE)]

# What the other scripts have and is not played.
ELSEWHERE = [
    "settle: what is asked at a terminal: it is one of Linux's; tests/windows tries a console",
    "sync: closed streams: wine does not begin without them",
    "sync: links, as `wine takes a link to a file for the file`",
    "sync: pipes, and an editor that saves while one is waited for: a folder of Windows has none",
    "sync: modes, owners: a file has none",
    "sync: locks that another program of Linux holds: wine does not see them; tests/windows tries those of the program itself",
    "sync: power cuts, calls that fail, changes taken back and what comes between: `strace`, and a library before C's; tests/windows kills",
    "sync: syncs killed at random moments: tests/windows kills at each call",
]


def kept_of(play: Play) -> tuple[Play, list[str]]:
    """The play without what is left out, and a line for each part of it that is."""
    rows: list[Row] = []
    told = []
    for number, row in enumerate(play.rows):
        reason = reason_of(row, FROM)
        if reason:
            count = len(play.rows) - number
            told.append(f"{play.path.name}:{row.line}, {play.title}: {count} rows: {reason}")
            break
        reason = reason_of(row, ALONE)
        if reason:
            told.append(f"{play.path.name}:{row.line}, {play.title}: 1 row: {reason}")
        else:
            rows.append(row)
    return replace(play, rows=rows), told


def reason_of(row: Row, reasons: list[tuple[re.Pattern, str]]) -> str:
    return next((why for what, why in reasons if what.search(row.text)), "")
