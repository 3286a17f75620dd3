"""Conflicts that are settled through pipes."""
from pathlib import Path

from reporting import Tally
from team import MATTHEW, Answer, Team, teams

CHOICE = b"Type the number of the text to keep, e to type your own, s to skip, q to stop.\n"
ASKED = (
    b"\nMAT 1:1, 2 left\n\nbefore it:\n\\c 1\n\\p\n\n1: 6 ben, in the book\n\\v 1 [At] the beginning\n\n"
    b"2: 6 ana\n\\v 1 [To] the beginning\n\n" + CHOICE
)
SECOND = (
    b"\nMAT 1:2, 1 left\n\nbefore it:\n\\v 1 To the beginning\n\n1: 7 ben, in the book\n\\v 2 So it [is]\n\\p\n\n"
    b"2: 7 ana\n\\v 2 So it [was once]\n\\p\n\n" + CHOICE
)
EDIT_LINES = b"The lines of text 1: Return keeps one, - leaves it out, + TEXT adds one after it,\nand any other text takes its place.\n"
UNCLEAR = b"Type one of the numbers, e, s or q.\n"


def check_pipes(tally: Tally, program: Path, work: Path) -> None:
    each = teams(program, work, "pipes")
    for check in (
        check_two, check_own, check_ends, check_skipped, check_named, check_refused, check_texts, check_equal,
        check_head, check_many, check_text_of, check_full,
    ):
        check(tally, next(each))


def begin(team: Team) -> None:
    """Two conflicts at ana's."""
    team.begin("ana", "ben")
    team.differ("MAT 1:1", b"\\v 1 To the beginning\n", b"\\v 1 At the beginning\n", "ana", "ben")
    team.differ("MAT 1:2", b"\\v 2 So it was once\n\\p\n", b"\\v 2 So it is\n\\p\n", "ana", "ben")


def check_two(tally: Tally, team: Team) -> None:
    begin(team)
    answer = team.answer("settle", "ana", typed=b"2\n1\n")
    made = ASKED + b"made 8 ana\n" + SECOND + b"made 9 ana\nsettled 2\nconflicts 0\n"
    tally.check(answer == Answer(0, made), f"two conflicts settled by numbers: {answer}")
    wanted = MATTHEW.replace(b"In the", b"To the").replace(b"So it was", b"So it is")
    tally.check(team.do("export", "ana", "MAT") == wanted, "the book has the texts that were taken")
    tally.check(team.do("report", "ana") == b"", "no conflict is left")
    team.tell("ana", "ben")
    tally.check(team.do("export", "ben", "MAT") == wanted, "and so at the other copy")
    answer = team.answer("settle", "ana")
    tally.check(answer == Answer(0, b"settled 0\nconflicts 0\n"), f"where there is no conflict: {answer}")


def check_own(tally: Tally, team: Team) -> None:
    """Each line of the first text is asked: it is kept, left out, or another one takes its place."""
    begin(team)
    typed = b"e\n\\v 1 As it began\n e \n+ \\q1 Then\n\r\n"
    answer = team.answer("settle", "ana", typed=typed)
    asked = EDIT_LINES + b"[\\v 1 At the beginning]\nmade 8 ana\n"
    is_made = asked in answer.output and answer.output.endswith(
        EDIT_LINES + b"[\\v 2 So it is]\n[\\p]\nmade 9 ana\nsettled 2\nconflicts 0\n"
    )
    tally.check(is_made and answer.status == 0, f"two texts whose lines were answered: {answer}")
    wanted = MATTHEW.replace(b"In the beginning", b"As it began").replace(b"So it was", b"So it is\n\\q1 Then")
    tally.check(team.do("export", "ana", "MAT") == wanted, "the book has the lines that were answered")
    team.differ("MAT 1:3", b"\\v 3 So\n\\q1 a\n\\q2 b\r\n", b"\\v 3 So\n\\q1 c\n\\q2 d\r\n", "ana", "ben")
    team.do("settle", "ana", typed=b"e\n\n-\n\\q2 e\n")
    tally.check(b"\\v 3 So\n\\q2 e\r\n" in team.do("export", "ana", "MAT"), "a line is left out, and one ends as it did")


def check_ends(tally: Tally, team: Team) -> None:
    begin(team)
    before = (team.folder / "ana").read_bytes()
    for typed in (b"", b"q\n", b"q", b"e\n", b"e\n\\v 1 Half", b"x\n", b"\xff\n"):
        answer = team.answer("settle", "ana", typed=typed)
        is_right = answer.status == 0 and answer.output.endswith(b"settled 0\nconflicts 2\n")
        tally.check(is_right and answer.error == b"", f"the input {typed} ends: {answer}")
        tally.check((team.folder / "ana").read_bytes() == before, f"after the input {typed} the project is as it was")
    answer = team.answer("settle", "ana", typed=b"2\n")
    tally.check(answer.output.endswith(b"settled 1\nconflicts 1\n"), f"the input ends after one answer: {answer}")
    answer = team.answer("settle", "ana", typed=b"1")
    tally.check(answer.output.endswith(b"settled 1\nconflicts 0\n"), f"a last line without its end: {answer}")


def check_skipped(tally: Tally, team: Team) -> None:
    begin(team)
    answer = team.answer("settle", "ana", typed=b"s\n0\n3\n01\n-1\n1 2\n\n2\n")
    wanted = ASKED + SECOND.replace(b"v 1 To", b"v 1 At") + UNCLEAR * 6 + b"made 8 ana\nsettled 1\nconflicts 1\n"
    tally.check(answer == Answer(0, wanted), f"a conflict skipped, and answers that are none: {answer}")
    text = b"e\n\\v 9 So\ne\nSo\ne\n\\v 1 \xff\ne\n-\n1\n"
    answer = team.answer("settle", "ana", typed=text)
    refused = answer.output.count(b"Nothing was changed: that is no text of this segment.")
    is_right = refused == 2 and answer.output.count(b"not UTF-8") == answer.output.count(b"no text was typed") == 1 and answer.output.endswith(b"settled 1\nconflicts 0\n")
    tally.check(is_right, f"texts that do not fit are asked again: {answer}")


def check_named(tally: Tally, team: Team) -> None:
    begin(team)
    for words, count in ((["MAT"], 2), (["MAT 1:2"], 1), (["MAT 1:3"], 0), (["MAT 0", "MAT 1:1", "MAT 1:2"], 2)):
        answer = team.answer("settle", "ana", *words)
        tally.check(answer.output.endswith(b"settled 0\nconflicts %d\n" % count), f"settle {words}: {answer}")
        tally.check(answer.output.startswith(b"\nMAT") == (count > 0), f"what settle {words} asks: {answer}")


def check_refused(tally: Tally, team: Team) -> None:
    begin(team)
    (team.folder / "none").write_bytes(b"nothing")
    for words, fault in (
        (["ana", "MRK"], b"82"), (["ana", "MAT 1:1", "MRK 1:1"], b"82"), (["ana", "Mat"], b"20"), (["ana", "MAT 1.1"], b"21"),
        (["ana", "Matthew"], b"20"), (["none"], b"110"), (["missing"], b"120"), (["."], b"120"),
    ):
        answer = team.answer("settle", *words, typed=b"1\n")
        tally.check(answer == Answer(1, b"", b"fault %s\n" % fault), f"settle {words}: {answer}")
    (team.folder / "ana").chmod(0o444)
    answer = team.answer("settle", "ana", typed=b"1\n")
    tally.check(answer.status == 1 and answer.error == b"fault 130\n", f"a project that nobody may write: {answer}")


def check_texts(tally: Tally, team: Team) -> None:
    """Control characters are spelled out, and all texts stay as they are."""
    team.begin("ana", "ben")
    hebrew = "\\v 1 בְּרֵאשִׁית בָּרָא אֱלֹהִים\n".encode()
    wild = b"\\v 1 a\x1b[2J\x07b\xc2\x9b31m\xe2\x80\xaec\x7f\td\r\n"
    team.differ("MAT 1:1", hebrew, wild, "ana", "ben")
    long = b"\\v 2 " + b" ".join(b"word%d" % it for it in range(430)) + b"\n"
    longer = long.replace(b"word200", b"another")
    team.differ("MAT 1:2", long, longer, "ana", "ben")
    tally.check(len(long) > 3000, "a text of 3,000 characters")
    answer = team.answer("settle", "ana", typed=b"1\n2\n")
    shown = answer.output
    tally.check(b"a\\x1b[2J\\x07b\\x9b31m\\u202ec\\x7f" in shown, f"control characters are spelled out: {shown[:600]}")
    tally.check(not any(byte < 32 and byte != 10 for byte in shown) and b"\xc2\x9b" not in shown, "none is left")
    tally.check(b"\xe2\x80\xae" not in shown, "no bidirectional control is left")
    tally.check(b"\\v 1 [" + hebrew[5:-1] + b"]\n[]\n" in shown, f"right-to-left text: {shown[:600]}")
    tally.check(b"\\x7f\\x09d\\x0d]\n[]\n" in shown, f"a line end that differs is spelled out: {shown[:600]}")
    tally.check(b"word199 [another] word201" in shown and b"word199 [word200] word201" in shown, "one word of 430 differs")
    book = team.do("export", "ana", "MAT")
    tally.check(wild in book and long in book, "the texts are taken byte for byte")


def check_equal(tally: Tally, team: Team) -> None:
    """Operations that have one text are listed, and replaced together."""
    team.begin("ana", "ben", "cy")
    team.edit("cy", "MAT 1:1", b"\\v 1 To the beginning\n")
    team.differ("MAT 1:1", b"\\v 1 To the beginning\n", b"\\v 1 At the beginning\n", "ana", "ben")
    team.tell("cy", "ana")
    answer = team.answer("settle", "ana", typed=b"2\n")
    listed = b"1: 6 cy, in the book\n\\v 1 [To] the beginning\n\n2: 6 ben\n\\v 1 [At] the beginning\n\n6 ana has text 1 too\n"
    tally.check(listed in answer.output, f"an operation with an equal text is listed: {answer}")
    tally.check(team.shown("ana", "MAT 1:1") == [b"op 7 ana 22"], "all that were listed are replaced")


def check_head(tally: Tally, team: Team) -> None:
    """The heads of books and chapters, and the empty text."""
    team.begin("ana", "ben")
    team.differ("MAT 1", b"\\c 1\n\\s A title\n", b"", "ana", "ben")
    team.differ("MAT 0", b"\\id MAT Ana\n", b"\\id MAT Ben\n", "ana", "ben")
    answer = team.answer("settle", "ana", typed=b"1\n2\n")
    head = b"\nMAT 0, 2 left\n\n1: 7 ben, in the book\n\\id MAT [Ben]\n\n2: 7 ana\n\\id MAT [Ana]\n\n"
    tally.check(answer.output.startswith(head), f"the head of a book: {answer}")
    chapter = b"1: 6 ben, in the book as \\c 1, no text\n\n2: 6 ana\n[\\c 1]\n[\\s A title]\n[]\n"
    tally.check(chapter in answer.output, f"the head of a chapter, one text empty: {answer}")
    tally.check(b"\\id MAT Ben\n\\c 1\n\\s A title\n" in team.do("export", "ana", "MAT"), "both heads are settled")


def check_many(tally: Tally, team: Team) -> None:
    book = b"\\id MAT\n\\c 1\n" + b"".join(b"\\v %d It\n" % it for it in range(1, 46))
    team.begin("ana", "ben", book=book)
    for name in (b"ana", b"ben"):
        (team.folder / "changed").write_bytes(book.replace(b" It", b" " + name))
        team.do("import", name.decode(), "changed")
    team.tell("ben", "ana")
    answer = team.answer("settle", "ana", typed=b"2\n" * 45)
    tally.check(answer.output.endswith(b"settled 45\nconflicts 0\n"), f"45 conflicts: {answer.output[-300:]}")
    tally.check(team.do("export", "ana", "MAT") == book.replace(b" It", b" ana"), "all 45 have the text that was taken")


def check_text_of(tally: Tally, team: Team) -> None:
    """The text of a shown operation in the place of standard input."""
    begin(team)
    taken = ["edit-over", "ana", "MAT 1:1", "6:ana", "6:ben", "--text-of"]
    for word, fault in (("6-ana", b"52"), ("3:ana", b"83 3 ana"), ("7:ana", b"83 7 ana"), ("9:cy", b"83 9 cy")):
        answer = team.answer(*taken, word)
        tally.check(answer == Answer(1, b"", b"fault %s\n" % fault), f"--text-of {word}: {answer}")
    answer = team.answer("edit-over", "ana", "MAT 1:1", "7:ana", "--text-of", "6:ana")
    tally.check(answer == Answer(1, b"", b"fault 83 7 ana\n"), f"an id that is not shown: {answer}")
    answer = team.answer("edit-over", "ana", "MAT 1:1", "6:ben", "--text-of", "6:ana")
    tally.check(answer == Answer(0, b"made 8 ana\n"), f"over one of two texts: {answer}")
    tally.check(team.shown("ana", "MAT 1:1") == [b"op 6 ana 22", b"op 8 ana 22"], "what is not named stays")
    answer = team.answer("edit-over", "ana", "MAT 1:1", "6:ana", "8:ana", "--text-of", "8:ana", typed=b"\\v 1 Typed\n")
    tally.check(answer == Answer(0, b"made 9 ana\n"), f"over all: {answer}")
    tally.check(team.do("shown", "ana", "MAT 1:1") == b"op 9 ana 22\n\\v 1 To the beginning\n\n", "standard input is not read")


def check_full(tally: Tally, team: Team) -> None:
    """Where the output is full, the fault counts all that was written, and what was answered by then is done."""
    begin(team)
    answer, output = team.answer_on_full_disk("settle", "ana", typed=b"x\n" * 20 + b"2\n1\n")
    tally.check(answer == Answer(1, b"", b"fault 90 1024\n"), f"an output that is full after 1,024 bytes: {answer}")
    whole = ASKED + UNCLEAR * 20 + b"made 8 ana\n" + SECOND
    tally.check(output == whole[:1024], f"what was written by then: {output!r}")
    tally.check(b"To the beginning" in team.do("export", "ana", "MAT"), "and the answer before it is done")
