"""What the program has to do while calls fail: each subcommand, on the worked examples."""
from dataclasses import dataclass, field

from model.bundles import seal, write_bundle, write_project
from model.operations import Operation, set_of
from model.references import BOOK_HEAD, HEAD, Id, Key, Verse
from model.replicas import load
from rows.vectors import ANAS, BENS, CLASHING, EMPTY, FIRST, SHEET, SUMMARY, THINNED

PROJECT = "p"


@dataclass(frozen=True)
class Play:
    """Words, the files of the folder before, standard input, whether the project is a link to far/p, and whether standard output is
    a terminal."""

    words: list[str]
    files: dict[str, bytes] = field(default_factory=dict)
    given: bytes = b""
    is_linked: bool = False
    at_terminal: bool = False


def project(bundle: bytes) -> bytes:
    """The file of ana's project that holds a bundle's operations."""
    return EMPTY[: -len(write_bundle({}))] + bundle


def book(*pieces: tuple[Key, bytes]) -> bytes:
    """The file of ana's project that holds a book of these pieces."""
    operations = [Operation(Id(place, "ana"), "MAT", key, (), text) for place, (key, text) in enumerate(pieces, start=1)]
    return project(write_bundle(set_of(operations)))


def verse(number: int) -> Key:
    return Key(1, Verse(number))


HEAD_OF_BOOK = (BOOK_HEAD, b"\\id MAT\n")
# Verse 2 comes after verse 3.
FALLING = book(
    HEAD_OF_BOOK,
    (Key(1, HEAD), b"\\c 1\n"),
    (verse(1), b"\\v 1 a "),
    (verse(3), b"\\v 3 b \\v 2 c "),
    (verse(4), b"\\v 4 d"),
)
GNATS = book(
    HEAD_OF_BOOK,
    (Key(1, HEAD), b"\\c 1\n\\p\n"),
    (verse(1), b'\\v 1 In \\w gnat|lemma="gnat"\\w* the gnat\\f + \\ft gnat\\f*\n'),
)
HELD = project(FIRST)
CHANGED = b"\\id MAT\n\\c 1\n\\v 1 At\n"
# The first operation of THINNED alone, which nothing names.
UNNAMED = THINNED[:15] + b"\1" + THINNED[16:46]


def conflicting() -> bytes:
    """The file of ana's project that holds three texts of a verse, of which one is replaced by both others."""
    replica = load(HELD)
    replica.receive(BENS)
    replica.receive(ANAS)
    return write_project("ana", replica.held)


CONFLICTING = conflicting()
# A book, and what two sides made of it: apart, and the one in a verse that the other changed too.
BASE = b"\\id MAT\n\\c 1\n\\v 1 a\n\\v 2 b\n"
OURS = b"\\id MAT\n\\c 1\n\\v 1 A\n\\v 2 b\n"
THEIRS = b"\\id MAT\n\\c 1\n\\v 1 a\n\\v 2 B\n"
BOTH = b"\\id MAT\n\\c 1\n\\v 1 x\n\\v 2 B\n"
# A folder in which the verse of HELD has another text.
FOLDER = {"texts/MAT.usfm": b"\\id MAT\n\\c 1\n\\v 1 In the\n"}
# The text of a verse has a control character.
ESCAPES = book(HEAD_OF_BOOK, (Key(1, HEAD), b"\\c 1\n"), (verse(1), b"\\v 1 In \x1b[2J\n"))
# Answers to the conflict of CONFLICTING: a text is taken, and then one of one's own comes too late.
ANSWERS = (
    b"USFM answers 1\nconflict MAT 1:1 3:ben 3:ana\ntake 3:ben\nremark 3\nYes\n"
    b"conflict MAT 1:1 3:ben 3:ana\ntext 8\n\\v 1 As\n\n"
)
# The plays whose answers the second implementation does not have: the other tests say which are right.
AS_WRITTEN = ("page", "settle", "faults", "missing", "merge")

PLAYS = [
    # OURS is replaced as a project's file is.
    Play(["merge", "base", PROJECT, "theirs"], {PROJECT: OURS, "base": BASE, "theirs": THEIRS}),
    Play(["merge", "base", PROJECT, "theirs", "--mark"], {PROJECT: OURS, "base": BASE, "theirs": BOTH}),
    Play(["merge", "base", PROJECT, "theirs", "--stdout"], {PROJECT: OURS, "base": BASE, "theirs": THEIRS}),
    Play(["merge", "base", PROJECT, "theirs"], {PROJECT: OURS, "base": BASE, "theirs": b"\\id MRK\n"}),
    Play(["init", PROJECT, "ana"]),
    Play(["init", PROJECT, "ana"], {f"{PROJECT}.new": bytes(5_000)}),
    Play(["import", PROJECT, "book"], {PROJECT: HELD, "book": CHANGED}),
    Play(["import", PROJECT, "book"], {PROJECT: HELD, "book": b"\\id MAT\n"}),
    Play(["import", PROJECT, "book"], {PROJECT: HELD, "book": b"\\c 1\n"}),
    Play(["import", PROJECT, "book", "other"], {PROJECT: HELD, "book": CHANGED, "other": b"\\id LUK\n"}),
    Play(["import", PROJECT, "book", "other"], {PROJECT: HELD, "book": CHANGED, "other": b"\\c 1\n"}),
    Play(["import", PROJECT, "book", "--since", "bundle"], {PROJECT: HELD, "book": CHANGED, "bundle": FIRST}),
    Play(["import", PROJECT, "book", "--since", "bundle"], {PROJECT: EMPTY, "book": CHANGED, "bundle": FIRST}),
    Play(["import", PROJECT, "book", "--since", "bundle"], {PROJECT: HELD, "book": CHANGED, "bundle": CLASHING}),
    Play(["edit", PROJECT, "MAT 1:1"], {PROJECT: CONFLICTING}, b"\\v 1 As\n"),
    Play(["edit", PROJECT, "LUK 1:1"], {PROJECT: HELD}, b"\\v 1 a"),
    Play(["edit-over", PROJECT, "MAT 1:1", "3:ana"], {PROJECT: CONFLICTING}, b"\\v 1 As\n"),
    Play(["edit-over", PROJECT, "MAT 1:1", "2:ana"], {PROJECT: CONFLICTING}, b"\\v 1 As\n"),
    Play(["edit-over", PROJECT, "MAT 1:1", "3:ana", "3:ben", "--text-of", "3:ana"], {PROJECT: CONFLICTING}),
    Play(["receive", PROJECT, "bundle"], {PROJECT: HELD, "bundle": BENS}),
    Play(["receive", PROJECT, "bundle"], {PROJECT: HELD, "bundle": BENS}, is_linked=True),
    Play(["receive", PROJECT, "bundle"], {PROJECT: EMPTY, "bundle": FIRST, f"{PROJECT}.new": bytes(5_000)}),
    Play(["receive", PROJECT, "bundle"], {PROJECT: HELD, "bundle": CLASHING}),
    Play(["receive", PROJECT, "bundle", "other"], {PROJECT: HELD, "bundle": BENS, "other": ANAS}),
    Play(["receive", PROJECT, "bundle", "other"], {PROJECT: HELD, "bundle": BENS, "other": CLASHING}),
    Play(["receive", PROJECT, "bundle"], {PROJECT: HELD, "bundle": FIRST[:50]}),
    Play(["receive", PROJECT, "bundle"], {PROJECT: HELD, "bundle": THINNED}),
    Play(["receive", PROJECT, "bundle"], {PROJECT: HELD, "bundle": UNNAMED}),
    Play(["receive", PROJECT, "bundle"], {PROJECT: HELD, "bundle": seal(BENS)}),
    Play(["receive", PROJECT, "bundle"], {PROJECT: HELD, "bundle": seal(BENS)[:-1]}),
    Play(["thin", PROJECT], {PROJECT: CONFLICTING}),
    Play(["thin", PROJECT], {PROJECT: HELD}),
    Play(["shown", PROJECT, "MAT 1:1"], {PROJECT: CONFLICTING}),
    Play(["send", PROJECT], {PROJECT: CONFLICTING}),
    Play(["send", PROJECT, "--sealed"], {PROJECT: CONFLICTING}),
    Play(["summary", PROJECT], {PROJECT: CONFLICTING}),
    Play(["delta", PROJECT, "summary"], {PROJECT: CONFLICTING, "summary": SUMMARY}),
    Play(["export", PROJECT, "MAT"], {PROJECT: HELD}),
    Play(["report", PROJECT], {PROJECT: CONFLICTING}),
    Play(["status", PROJECT, "summary", "bundle"], {PROJECT: CONFLICTING, "summary": SUMMARY, "bundle": FIRST}),
    Play(["status", PROJECT, "bundle"], {PROJECT: HELD, "bundle": FIRST[:50]}),
    Play(["progress", PROJECT], {PROJECT: FALLING}),
    Play(["page", PROJECT], {PROJECT: CONFLICTING}),
    Play(["missing", PROJECT, "--versification", "verses"], {PROJECT: HELD, "verses": b"MAT 1:9\n"}),
    Play(["missing", PROJECT, "--versification", "verses"], {PROJECT: HELD, "verses": b"MAT 1:9\nMAT 1\n"}),
    Play(["missing", PROJECT, "--all"], {PROJECT: FALLING}),
    Play(["read", PROJECT, "MAT"], {PROJECT: CONFLICTING}),
    Play(["read", PROJECT, "MAT", "--sheet", "sheet"], {PROJECT: FALLING, "sheet": SHEET}),
    Play(["progress", PROJECT, "LUK"], {PROJECT: HELD}),
    Play(["status", PROJECT, "texts"], {PROJECT: HELD, **FOLDER}),
    Play(["settle", PROJECT], {PROJECT: CONFLICTING}, b"1\n"),
    Play(["settle", PROJECT], {PROJECT: CONFLICTING}, b"e\n\\v 1 As\n.\n"),
    Play(["settle", PROJECT, "MAT"], {PROJECT: CONFLICTING}, b"s\n"),
    Play(["settle", PROJECT], {PROJECT: HELD}),
    Play(["settle", PROJECT, "--answers", "answers"], {PROJECT: CONFLICTING, "answers": ANSWERS}),
    Play(["settle", PROJECT, "--answers", "answers", "other"], {PROJECT: CONFLICTING, "answers": ANSWERS, "other": ANSWERS[:60]}),
    Play(["history", PROJECT, "MAT 1:1"], {PROJECT: CONFLICTING}),
    Play(["history", PROJECT, "LUK"], {PROJECT: HELD}),
    Play(["changes", PROJECT, "--since", "bundle", "--text"], {PROJECT: CONFLICTING, "bundle": FIRST}),
    Play(["changes", PROJECT, "--since", "summary"], {PROJECT: CONFLICTING, "summary": SUMMARY}),
    Play(["changes", PROJECT, "--since", "bundle"], {PROJECT: HELD, "bundle": FIRST[:50]}),
    Play(["restore", PROJECT, "3:ana"], {PROJECT: CONFLICTING}),
    Play(["restore", PROJECT, "9:ana"], {PROJECT: HELD}),
    Play(["restore", PROJECT, "--since", "bundle", "--all"], {PROJECT: CONFLICTING, "bundle": FIRST}),
    Play(["combine", "bundle", "other"], {"bundle": FIRST, "other": BENS}),
    Play(["combine", "bundle", "other"], {"bundle": FIRST, "other": CLASHING}),
    Play(["combine", "bundle", "other"], {"bundle": THINNED, "other": FIRST[:50]}),
    Play(["faults"]),
    Play(["edit", PROJECT, "MAT 1:1"], {PROJECT: CONFLICTING}, b"\\v 1 As\n", at_terminal=True),
    Play(["receive", PROJECT, "bundle"], {PROJECT: HELD, "bundle": BENS}, at_terminal=True),
    Play(["receive", PROJECT, "bundle", "other"], {PROJECT: HELD, "bundle": BENS, "other": ANAS}, at_terminal=True),
    Play(["import", PROJECT, "book"], {PROJECT: HELD, "book": CHANGED}, at_terminal=True),
    Play(["thin", PROJECT], {PROJECT: CONFLICTING}, at_terminal=True),
    Play(["settle", PROJECT], {PROJECT: CONFLICTING}, b"2\n", at_terminal=True),
    Play(["shown", PROJECT, "MAT 1:1"], {PROJECT: ESCAPES}, at_terminal=True),
    Play(["export", PROJECT, "MAT"], {PROJECT: ESCAPES}, at_terminal=True),
    Play(["status", PROJECT, "bundle"], {PROJECT: HELD, "bundle": FIRST}, at_terminal=True),
    Play(["check", PROJECT, "MAT", "sheet"], {PROJECT: FALLING, "sheet": SHEET}),
    Play(["find", PROJECT, "MAT", "sheet", "gnat"], {PROJECT: GNATS, "sheet": SHEET}),
    Play(["words", PROJECT, "MAT", "sheet"], {PROJECT: GNATS, "sheet": SHEET}),
    Play(["check", PROJECT, "--text", "--sheet", "sheet"], {PROJECT: FALLING, "sheet": SHEET}),
    Play(["find", PROJECT, "gnat", "--text", "--sheet", "sheet"], {PROJECT: GNATS, "sheet": SHEET}),
    Play(["words", PROJECT, "--sheet", "sheet"], {PROJECT: GNATS, "sheet": SHEET}),
    Play(["check", "--lines", "--sheet", "sheet", "--files", "book", "other"], {"book": CHANGED, "other": CHANGED, "sheet": SHEET}),
    Play(["find", "t", "--lines", "--text", "--sheet", "sheet", "--files", "book"], {"book": CHANGED, "sheet": SHEET}),
    Play(["words", "--sheet", "sheet", "--files", "book"], {"book": CHANGED, "sheet": SHEET}),
    Play(["missing", "--versification", "verses", "--files", "book"], {"book": CHANGED, "verses": b"MAT 1:9\n"}),
    Play(["check", PROJECT, "--lines", "--sheet", "sheet"], {PROJECT: FALLING, "sheet": SHEET}),
    Play(["fold", "MAT"], given=FIRST + BENS + ANAS),
    Play(["fold", "MAT"], given=ANAS + BENS + FIRST),
    Play(["fold", "MAT"], given=FIRST + THINNED),
    Play(["fold", "MAT"], given=THINNED + FIRST),
    Play(["fold", "MAT"], given=FIRST + UNNAMED),
    Play(["fold", "MAT"], given=FIRST + CLASHING),
    Play(["fold", "MAT"], given=FIRST + b"\0"),
    Play(["fold", "MAT"], given=seal(FIRST) + BENS + seal(THINNED)),
    Play(["fold", "MAT"], given=THINNED + seal(FIRST)[:-1]),
    Play(["fold", "LUK"], given=FIRST),
]
