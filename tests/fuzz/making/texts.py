"""USFM texts with marks at odd places."""
from random import Random

from model.references import BOOK_HEAD, Key, write_key
from model.tokens import cut

# Letters that compose, ones that do not, ones that compose to others, combining marks first, and no letters.
WORDS = (
    ["In", "the", "gnat", "LORD", "a", "aa", "aaa", "aaaaa", "x_y", "3b", "don\u2019t", "1", "a\u200db"]
    + ["a\u00a0b", "\ufeff", "\U0001f600", "\uffff", "\U0010ffff"]
    + ["\u00e9t\u00e9", "e\u0301te\u0301", "na\u00efve", "\u0308a", "\u212b", "\u1e9b\u0323", "q\u0307\u0323"]
    + ["\u2167", "\u24d0", "\U0001f170", "\u00aa", "\u00b2", "\u20dd", "\u0345", "\u0958", "\ufb01n"]
    + ["\u0915\u094d\u0937\u093f"]
    + ["\u05e9\u05b8\u05c1\u05dc", "\ufb2a", "\u1f00\u03c1\u03c7\u1fc7", "\u1100\u1161\u11a8", "\ud55c\uad6d"]
    + ["\U0001d15e", "\U0001109a", "\U00011099\U000110ba", "\u4e2d", "\u0e33", "\u0f71\u0f72"]
)
BLANKS = ["\n"] * 4 + [" "] * 6 + ["  ", "\t", "\r\n", "\r", " \n "]
PARAGRAPHS = ["p", "p", "q1", "m", "s", "b"]
CHARACTERS = ["nd", "add", "wj", "w", "k"]
MARKS = PARAGRAPHS + CHARACTERS + "c v f x ft fr qt-s qt-e ts zzz id v_ c1 -".split() + [""]
NUMBERS = "0 1 2 3 003 12 999 1000 0000 1- 2-3 3-3 3a-3 3-3a 4-2 1-2a 1a 2b 3A 3ab 12a 1-x 1--2".split()
NUMBERS += ["1- 2", "1-1000", "3-4ab", "1\u20132", "2-3-4", "1\u00e9", "5|"]
INVALID = [b"\xff", b"\x80", b"\xc3", b"\xe2\x82", b"\xf0\x9f\x98"]
INVALID += [b"\xc0\x80", b"\xed\xa0\x80", b"\xf4\x90\x80\x80"]


def make_words(rng: Random) -> str:
    """Some words, between blanks."""
    return "".join(rng.choice(BLANKS) + rng.choice(WORDS) for _ in range(rng.randint(1, 3)))


def make_mark(rng: Random) -> str:
    """Any mark."""
    nested = "+" if rng.random() < 0.2 else ""
    closing = "*" if rng.random() < 0.3 else ""
    return f"\\{nested}{rng.choice(MARKS)}{closing}"


def make_paragraph(rng: Random) -> str:
    return f"\\{rng.choice(PARAGRAPHS)}{rng.choice(BLANKS)}"


def make_character(rng: Random, depth: int = 0) -> str:
    """A character in its marks, perhaps with others in it, or with attributes, or without its end."""
    plus = "+" if depth and rng.random() < 0.8 else ""
    name = rng.choice(CHARACTERS)
    inside = make_words(rng)
    while depth < 4 and rng.random() < 0.3:
        inside += make_character(rng, depth + 1) + make_words(rng)
    if depth < 2 and rng.random() < 0.1:
        inside += make_note(rng)
    if rng.random() < 0.4:
        inside += rng.choice(['|lemma="gnat"', "|", "|gnat|In", 'x| strong="H1"'])
    end = rng.choice([f"\\{plus}{name}*"] * 6 + ["", "\\nd*", "\\+nd*"])
    return f"\\{plus}{name}{inside}{end}"


def make_note(rng: Random) -> str:
    """A note, perhaps with marks in it, or without its end."""
    name = rng.choice(["f", "x"])
    inside = "".join(
        rng.choice([make_words(rng), make_character(rng, 2), make_mark(rng), "\\ft gnat", "\\fr 1:1 ", "\\nd*"])
        for _ in range(rng.randint(1, 3))
    )
    return f"\\{name} +{inside}" + rng.choice([f"\\{name}*"] * 4 + ["", "\\+f*"])


def make_milestone(rng: Random) -> str:
    """A milestone with attributes, or with parts left out."""
    name = rng.choice(["qt-s", "qt-e", "ts", "+qt-s"])
    inside = rng.choice(["", ' |who="Pilate"', " ", " In", "\\nd"])
    return f"\\{name}" + inside + rng.choice(["\\*"] * 4 + ["", "\\+*"])


def make_deep(rng: Random) -> str:
    """Marks in one another, about as deep as may be and deeper."""
    names = [rng.choice(CHARACTERS) for _ in range(rng.choice([5, 61, 62, 63, 64, 65, 70]))]
    end = rng.choice([make_words, make_note, make_milestone])(rng)
    closed = [it for it in reversed(names) if rng.random() < 0.9]
    return "".join(f"\\+{it} a" for it in names) + end + "".join(f"\\+{it}*" for it in closed)


def make_number(rng: Random) -> str:
    """A chapter or a verse with an odd number."""
    mark = rng.choice(["\\v", "\\v", "\\c"]) + rng.choice(BLANKS + [""])
    return mark + rng.choice(NUMBERS) + rng.choice(["", " ", "\n", "."])


def make_nested_number(rng: Random) -> str:
    """A number after a mark that is nested or closing, and so has no key."""
    mark = rng.choice(["\\+v", "\\+v", "\\v*", "\\+c"])
    return mark + rng.choice(BLANKS) + rng.choice(["2", "2b", "1a", "1-2a"])


def make_slash(rng: Random) -> str:
    """Backslashes, and marks without a name."""
    return rng.choice(["\\", "\\\\", "\\*", "\\+", "\\+*", "\\**", "\\ p", "\\\u00e9", "|", "\\_"])


def make_noise(rng: Random, length: int, numbers: bool) -> str:
    """Anything that is in a verse, with numbers of chapters and verses in it or without."""
    makers = [make_words] * 8 + [make_character] * 5 + [make_paragraph] * 3 + [make_note] * 3
    makers += [make_milestone] * 2 + [make_mark] * 2 + [make_slash, make_nested_number]
    if numbers:
        makers += [make_number] * 2
    noise = "".join(rng.choice(makers)(rng) for _ in range(rng.randint(0, length)))
    return noise + (make_deep(rng) if rng.random() < 0.03 else "")


def make_verse_number(rng: Random, number: int) -> str:
    """A verse's number, now and then with a letter or a bridge."""
    letters = [f"{number}a", f"{number}b", f"{number}c"]
    written = rng.choice([str(number)] * 20 + letters + [f"{number:03}", rng.choice(NUMBERS)])
    after = number + 1
    last = rng.choice([f"{after}", f"{after}", f"{after}a", f"{after}b", f"{after + 2}", f"{number}b", "", "x"])
    return written + (f"-{last}" if rng.random() < 0.25 else "")


def make_opening(rng: Random, book: str) -> str:
    """The first line of a book."""
    mark = "\ufeff" if rng.random() < 0.15 else ""
    blank = rng.choice(" " * 12 + "\n\t\r")
    return mark + "\\id" + blank + book + rng.choice(["\n", "\n", " In\n", ""])


def make_book(rng: Random, book: str, verses: int) -> bytes:
    """A book of about this many verses, in chapters."""
    text = make_opening(rng, book)
    chapter, number = rng.choice([0, 1, 1, 1, 3]), 0
    if chapter:
        text += f"\\c {chapter}\n"
    if rng.random() < 0.6:
        text += "\\p\n"
    for _ in range(verses):
        if rng.random() < 0.1:
            chapter, number = chapter + rng.choice([1, 1, 1, 2, 0, -1]), 0
            text += f"\\c {rng.choice([str(abs(chapter))] * 60 + NUMBERS[:9])}{rng.choice(BLANKS)}"
        if rng.random() < 0.3:
            text += make_paragraph(rng)
        number = max(0, number + rng.choice([1] * 8 + [2, 0, -1]))
        numbers = rng.random() < 0.2
        text += f"\\v {make_verse_number(rng, number)}{make_noise(rng, 4, numbers)}{rng.choice(BLANKS)}"
    return with_ends(rng, text)


def with_ends(rng: Random, text: str) -> bytes:
    """A text's bytes, now and then with CR LF for its ends of lines."""
    return (text.replace("\n", "\r\n") if rng.random() < 0.15 else text).encode()


def make_text(rng: Random, book: str, key: Key) -> bytes:
    """A text for a segment, which mostly fits it."""
    chance = rng.random()
    if chance < 0.1:
        return b""
    if key == BOOK_HEAD:
        text = make_opening(rng, book) + make_noise(rng, 2, False)
    elif key.is_head:
        text = f"\\c {key.chapter}\n" + make_noise(rng, 2, False)
    else:
        written = f"{key.place.number}{key.place.letter}"
        text = f"\\v {written}" + rng.choice(["", "", f"-{key.place.number + 1}"])
        text += rng.choice(BLANKS) + make_noise(rng, 3, False)
    if chance < 0.2:
        text += rng.choice(["\\", "\\nd", "\\f +", "\\c", "|", "\\v", "\\qt-s"])
    elif chance < 0.3:
        text += make_number(rng)
    elif chance < 0.36:
        text = rng.choice([" ", "\ufeff", "\\p", "\\+", ""]) + make_noise(rng, 2, True)
    return with_ends(rng, text)


def changed_book(rng: Random, text: bytes) -> bytes:
    """A book with pieces left out, put twice, exchanged or written anew."""
    pieces = [it.text for it in cut(text)]
    keys = [it.key for it in cut(text)]
    for _ in range(rng.randint(1, 3)):
        place = rng.randrange(len(pieces))
        change = rng.randrange(6)
        if change == 0 and place:
            pieces[place] = b""
        elif change == 1:
            pieces[place] += make_noise(rng, 2, rng.random() < 0.3).encode()
        elif change == 2:
            pieces[place] += pieces[rng.randrange(len(pieces))]
        elif change == 3 and place:
            # All verses of a chapter, or a chapter's line alone.
            chapter, heads = keys[place].chapter, rng.random() < 0.3
            for other, key in enumerate(keys):
                if other and key.chapter == chapter and key.is_head == heads:
                    pieces[other] = b""
        elif change == 4 and place:
            key = keys[place]
            mark = "v " if not key.is_head else "c "
            pieces[place] = f"\\{mark}{write_key(key).split(':')[-1]} {rng.choice(WORDS)}\n".encode()
        elif place:
            del pieces[place:]
            del keys[place:]
    return b"".join(pieces)


def without_verses(text: bytes, chapter: int) -> bytes:
    """A book without the verses of a chapter."""
    return b"".join(it.text for it in cut(text) if it.key.is_head or it.key.chapter != chapter)


def broken_text(rng: Random, text: bytes) -> bytes:
    """A text with bytes in it that are no UTF-8."""
    place = rng.randint(0, len(text))
    return text[:place] + rng.choice(INVALID) + text[place:]
