"""Books with versifications, at hand and drawn."""
import random

MATTHEW = "MAT 1:25 2:23 3:17\n"
# A name, a versification (none: the program's own), and books by their codes, in their order.
BOOKS: list[tuple[str, str | None, dict[str, str]]] = [
    ("three verses of a chapter", None, {"MAT": "\\id MAT\n\\c 1\n\\p\n\\v 1 a\n\\v 2 b\n\\v 3 c\n"}),
    ("a book with no chapter", None, {"RUT": "\\id RUT\n\\h Ruth\n"}),
    ("a book that is laid out", None, {"JUD": "\\id JUD\n\\c 1\n" + "".join(f"\\v {it}\n" for it in range(1, 26))}),
    ("a whole book", None, {"2JN": "\\id 2JN\n\\c 1\n" + "".join(f"\\v {it} a\n" for it in range(1, 14))}),
    ("bridges to the end and beyond it", MATTHEW, {"MAT": "\\id MAT\n\\c 1\n\\v 1-24 a\n\\v 25-27 b\n\\c 2\n\\v 1-999 c\n\\c 3\n\\v 17-18 d\n"}),
    ("bridges that overlap", MATTHEW, {"MAT": "\\id MAT\n\\c 1\n\\v 1-9 a\n\\v 3 b\n\\v 5-12 c\n\\v 12-20 d\n\\v 21-25 e\n"}),
    ("a bridge to a smaller number", MATTHEW, {"MAT": "\\id MAT\n\\c 1\n\\v 7-3 a\n\\v 8-8 b\n\\v 9-9b c\n"}),
    ("parts", MATTHEW, {"MAT": "\\id MAT\n\\c 1\n\\v 1a a\n\\v 1b\n\\v 2b-3a c\n\\v 3b-4b d\n\\v 4b e\n\\v 4c f\n\\v 26a g\n\\v 26b h\n"}),
    ("chapters without verses", MATTHEW, {"MAT": "\\id MAT\n\\c 1\n\\p text\n\\c 3\n\\s a head\n"}),
    ("before the first chapter", MATTHEW, {"MAT": "\\id MAT\n\\v 1 a\n\\v 2-3 b\n\\c 1\n\\v 0 t\n\\v 1 c\n"}),
    ("chapters beyond the last, and chapter 999", MATTHEW, {"MAT": "\\id MAT\n\\c 3\n\\v 999 a\n\\c 4\n\\v 1 b\n\\c 999\n\\v 0 c\n\\v 999\n"}),
    ("verses that do not rise", MATTHEW, {"MAT": "\\id MAT\n\\c 1\n\\v 3 a\n\\v 2 b\n\\v 3 c\n\\c 1\n\\v 4 d\n"}),
    ("marks, notes and blanks alone", MATTHEW, {"MAT": "\\id MAT\n\\c 1\n\\v 1 \\p\n\\v 2 \\f + \\f*\n\\v 3\t\r\n\\v 4-5 \\nd \\nd*\n\\v 6 .\n"}),
    ("verses that are left out", "MAT 1:5 2:1\n-MAT 1:3\n-MAT 2:1\n-MRK 1:1\n", {"MAT": "\\id MAT\n\\c 1\n\\v 1 a\n\\v 3 b\n\\v 4-5 c\n\\c 2\n\\v 1 d\n"}),
    ("a chapter of no verses", "MAT 1:0 2:2\n", {"MAT": "\\id MAT\n\\c 1\n\\v 1 a\n"}),
    ("another line of a book", "MAT 1:9\nMAT 1:2\n", {"MAT": "\\id MAT\n\\c 1\n\\v 1 a\n\\v 3 b\n"}),
    (
        "books that the versification does not have",
        MATTHEW,
        {"MAT": "\\id MAT\n", "FRT": "\\id FRT\n\\p Title\n", "TOB": "\\id TOB\n\\c 1\n\\v 1-3 a\n\\v 2 b\n\\v 7\n"},
    ),
]


def drawn_number(draws: random.Random, most: int) -> str:
    """A number of a verse, sometimes with a letter."""
    return f"{draws.randint(0, most)}{draws.choice(['', '', '', 'a', 'b'])}"


def drawn_verse(draws: random.Random, near: int) -> str:
    """A verse, sometimes a bridge, with and without words."""
    number = f"{max(0, near + draws.choice([-1, 0, 0, 0, 1, 2]))}{draws.choice(['', '', '', 'a', 'b'])}"
    bridge = f"-{drawn_number(draws, near + 4)}" if draws.random() < 0.25 else ""
    words = draws.choice(["a", "word ", "", "\\p", "\\q1 b", " "])
    return f"\\v {number}{bridge} {words}\n"


def drawn_book(draws: random.Random) -> str:
    """Matthew, of a few chapters that are more or less whole."""
    lines = ["\\id MAT\n"]
    lines += [drawn_verse(draws, near) for near in range(draws.choice([0, 0, 0, 2]))]
    chapter = 0
    for _ in range(draws.randint(0, 4)):
        chapter += draws.choice([0, 1, 1, 1, 2])
        lines.append(f"\\c {chapter}\n")
        lines += [drawn_verse(draws, near) for near in range(1, draws.randint(1, 9)) if draws.random() < 0.85]
    return "".join(lines)


def drawn_versification(draws: random.Random) -> str:
    """A versification of a few verses, some of them left out."""
    lasts = " ".join(f"{chapter}:{draws.randint(0, 9)}" for chapter in range(1, draws.randint(2, 5)))
    out = "".join(f"-MAT {draws.randint(0, 4)}:{draws.randint(0, 9)}\n" for _ in range(draws.randint(0, 3)))
    return f"# drawn\n{draws.choice(['MAT', 'MAT', 'MAT', 'MRK'])} {lasts}\n{out}"
