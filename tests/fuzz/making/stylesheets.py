"""Style sheets, and ones with odd or wrong lines."""
from random import Random

from .texts import INVALID

RECORDS = [
    ["\\Marker id", "\\StyleType Paragraph"],
    ["\\Marker c", "\\StyleType Paragraph"],
    ["\\Marker p", "\\Name p - Paragraph", "\\StyleType Paragraph", "\\TextType VerseText", "\\Rank 4"],
    ["\\Marker q1", "\\TextType versetext", "\\StyleType PARAGRAPH"],
    ["\\Marker m", "\\StyleType Paragraph", "\\TextType VerseText"],
    ["\\Marker s", "\\StyleType Paragraph", "\\TextType Title"],
    ["\\Marker b", "\\Name a record without a type"],
    ["\\Marker add", "\\Endmarker add*", "\\OccursUnder p NEST", "\\StyleType Character"],
    ["\\Marker nd", "\\Endmarker nd*", "\\OccursUnder p q1 add NEST", "\\StyleType Character"],
    ["\\Marker wj", "\\Endmarker wj*", "\\OccursUnder p m wj f", "\\StyleType Character"],
    ["\\Marker w", "\\Endmarker w*", "\\StyleType Character", "\\OccursUnder nest p w"],
    ["\\Marker k", "\\Endmarker nd*", "\\StyleType Character"],
    ["\\Marker f", "\\Endmarker f*", "\\OccursUnder p q1", "\\StyleType Note"],
    ["\\Marker x", "\\Endmarker x*", "\\StyleType note"],
    ["\\Marker ft", "\\Endmarker ft*", "\\OccursUnder f", "\\StyleType Character"],
    ["\\Marker fr", "\\StyleType Character"],
    ["\\Marker qt-s", "\\Endmarker qt-e", "\\StyleType Milestone"],
    ["\\Marker ts", "\\Endmarker ts*", "\\StyleType Milestone"],
]
VERSES = [
    ["\\Marker v", "\\StyleType Character"],
    ["\\Marker v", "\\StyleType Character", "\\Endmarker v*"],
    ["\\Marker v", "\\StyleType Paragraph", "\\TextType VerseText"],
    [],
]
ODD_RECORDS = [
    ["\\Marker nd", "\\StyleType Character"],
    ["\\Marker f", "\\StyleType Note"],
    ["\\Marker p other", "#!\\StyleType Paragraph", "\\TextType VerseText x"],
    ["\\Marker zzz", "\\Endmarker qt-e", "\\StyleType Milestone", "\\StyleType milestone"],
    ["\\Marker w", "\\Endmarker *", "\\StyleType Character"],
    ["\\Marker add", "\\Endmarker add**", "\\Endmarker add", "\\StyleType Character"],
    ["\\Marker wj", "\\Endmarker wj* b", "\\StyleType Character"],
    ["\\Marker x", "\\Endmarker f*", "\\OccursUnder", "\\StyleType Note"],
    ["\\Marker c", "\\StyleType Note", "\\Endmarker c*"],
    ["\\Marker fr", "\\OccursUnder f x", "\\OccursUnder\tx\x0bf \t p", "\\Endmarker r", "\\StyleType Character"],
]
ODD_LINES = ["# \\StyleType Foo", "", "text", "\\", "\\Marker#", "\\Color 12", "\\StyleTypes Foo"]
ODD_LINES += ["\\Name x # \\y"]
ODD_LINES += ["#!#!\\Marker p", "#!#!\\StyleType Foo"]
ODD_LINES += ["#! # \\StyleType Foo", "\\\u00e9", " \t\\Name  a  b ", "\\Name a#b"]
ODD_LINES += ["#!  \\TextType  VERSETEXT  # x", "\ufeff\\StyleType Foo", "\u00a0\\StyleType Foo", "\\NAME"]
ODD_LINES += ["\x0b\\Marker q", "\\TextType"]
WRONG_LINES = ["\\StyleType Foo", "\\StyleType", "\\Marker", "\\Marker # p", "\\Marker \t", "\\StyleType Note x"]
WRONG_LINES += ["#!\\StyleType # Note", "\\styletype \u00a0Note", "\\MARKER"]
EARLY_LINES = ["\\Endmarker nd*", "\\Name x", "\\OccursUnder", "#! \\TextType VerseText", "\\StyleType Foo"]


def make_sheet(rng: Random) -> bytes:
    """A sheet, mostly right."""
    records = [it for it in RECORDS if rng.random() < 0.95] + [rng.choice(VERSES)]
    records += [it for it in ODD_RECORDS if rng.random() < 0.06]
    if rng.random() < 0.3:
        rng.shuffle(records)
    lines = [line for record in records for line in record]
    fields = [it for it in lines if not it.startswith("\\Marker")]
    while rng.random() < 0.5:
        lines.insert(rng.randint(1, len(lines)), rng.choice(rng.choice([ODD_LINES, fields])))
    chance = rng.random()
    if chance < 0.08:
        lines.insert(rng.randint(1, len(lines)), rng.choice(WRONG_LINES))
    elif chance < 0.11:
        lines.insert(0, rng.choice(EARLY_LINES))
    return finished(rng, lines)


def finished(rng: Random, lines: list[str]) -> bytes:
    """The bytes of a sheet of these lines."""
    sheet = rng.choice(["\n", "\n", "\n", "\r\n"]).join(lines) + rng.choice(["\n", ""])
    opening = rng.choice([""] * 16 + ["\ufeff"] * 3 + ["\ufeff\ufeff", " \ufeff"])
    data = (opening + sheet).encode()
    if rng.random() < 0.04:
        place = rng.randint(0, len(data))
        return data[:place] + rng.choice(INVALID) + data[place:]
    return data
