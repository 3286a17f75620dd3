"""Marks at places where USFM 3.0 does not have them, and what a check finds there.

A row says what is wrong, has a text that begins with a paragraph's mark, and lists what a check finds: for each finding its code
and its mark. The paragraph's text is put into a verse of its own.
"""
from typing import NamedTuple


class Row(NamedTuple):
    """A text, and its findings in order."""

    what: str
    text: str
    found: tuple[str, ...]


ROWS = [
    Row(
        "a footnote within a cross reference",
        r"\p a\x - \xo 1.1 \f + \ft b\f* \xt c\x*",
        (r"unclosed-note \x", r"unclosed-char \xt", r"stray-close \x*"),
    ),
    Row("a cross reference within a footnote", r"\p a\f + \ft b\x - \xt c\x* d\f*", (r"unclosed-note \f", r"stray-close \f*")),
    Row("a footnote that goes on over a paragraph", r"\p a\f + \ft b \q1 c\f*", (r"unclosed-note \f", r"stray-close \f*")),
    Row("a footnote where a blank line stands", r"\b a\f + \ft b\f*", (r"not-under \f",)),
    Row("a footnote in the running head", r"\h Book\f + \ft b\f*", (r"not-under \f",)),
    Row("a study note where a sidebar begins", r"\esb \ef - \ft a\ef*", (r"not-under \ef",)),
    Row("text after a chapter without a paragraph", r"\c 2 \nd a\nd*\f + \ft b\f*", (r"not-under \nd", r"not-under \f")),
    Row("the text of a footnote without the footnote", r"\p a \ft b\ft* c", (r"not-under \ft",)),
    Row("the same within another character", r"\p a \add b \+ft c\+ft*\add* d", (r"not-under \+ft",)),
    Row("the origin of a cross reference in a footnote", r"\p a\f + \xo 1.1 \ft b\f*", (r"not-under \xo",)),
    Row("a quotation of a footnote in a cross reference", r"\p a\x - \fq b \xt c\x*", (r"not-under \fq",)),
    Row("a verse's number of a footnote in the text", r"\p a \fv 3\fv* b", (r"not-under \fv",)),
    Row("words between references outside a note", r"\p a \xta and\xta* b", (r"not-under \xta",)),
    Row("a caller within a footnote", r"\p a\f + \fm *\fm* b\f*", (r"not-under \fm",)),
    Row("a figure within a footnote", r"\p a\f + \fig b|src='c'\fig*\f*", (r"not-under \fig",)),
    Row("a chapter's second number in a paragraph", r"\p a \ca 2\ca* b", (r"not-under \ca",)),
    Row("a verse's second number in a heading", r"\s1 a \va 2\va* b", (r"not-under \va",)),
    Row("a verse's published number in an introduction", r"\ip a \vp 2\vp* b", (r"not-under \vp",)),
    Row("a quotation's reference in a heading", r"\s1 a \rq b\rq*", (r"not-under \rq",)),
    Row("an outline's range in a paragraph", r"\p a \ior 1.1\ior* b", (r"not-under \ior",)),
    Row("an introduction's quotation in the text", r"\q1 a \iqt b\iqt* c", (r"not-under \iqt",)),
    Row("Selah in prose", r"\p a \qs Selah\qs*", (r"not-under \qs",)),
    Row("an acrostic's letter in prose", r"\m \qac A\qac* b", (r"not-under \qac",)),
    Row("a list's key and value in a paragraph", r"\p \lik a\lik* \liv1 b\liv1*", (r"not-under \lik", r"not-under \liv1")),
    Row("a list's total in a row of a table", r"\tr \tc1 a \tc2 \litl 5\litl*", (r"not-under \litl",)),
    Row("a category in the text", r"\p \cat a\cat* b", (r"not-under \cat",)),
    Row("words of Jesus in a table of contents", r"\toc1 \wj a\wj*", (r"not-under \wj",)),
    Row("a milestone without an end of its own", r"\p a \qt-s |who='b' c\qt-e\*", ()),
    Row("an end of a milestone's mark without it", r"\p a \nd b\nd*\* c", (r"stray-close \*",)),
    Row(
        "markers that the standard does not have",
        r"\p a \zx b\zx* \ps c",
        (r"unknown-marker \zx", r"stray-close \zx*", r"unknown-marker \ps"),
    ),
]
