"""The markers of USFM 3.0 by the chapters of its documentation: the type of each, and what ends it.

Where the documentation writes `#` for a level or a column, the numbers are those that books use: those in Paratext's sheet
for 3.0, a fifth value of a list item, and a fifth heading.
"""
from dataclasses import dataclass
from typing import Optional

COLUMNS = 5


@dataclass(frozen=True)
class Marker:
    """A marker, its StyleType, and the mark that ends it."""

    name: str
    style_type: str
    end: Optional[str] = None


def paragraphs(names: str) -> list[Marker]:
    return [Marker(name, "Paragraph") for name in names.split()]


def characters(names: str) -> list[Marker]:
    """Characters that a mark of their name with a `*` ends."""
    return [Marker(name, "Character", f"{name}*") for name in names.split()]


def unpaired(names: str) -> list[Marker]:
    """Characters that what follows ends, without a mark of their own."""
    return [Marker(name, "Character") for name in names.split()]


def notes(names: str) -> list[Marker]:
    return [Marker(name, "Note", f"{name}*") for name in names.split()]


def milestones(names: str) -> list[Marker]:
    """Milestones by the names of their starts, which end with `-s`."""
    return [Marker(name, "Milestone", f"{name[:-2]}-e") for name in names.split()]


def cells(kinds: str) -> list[Marker]:
    """Cells of each column."""
    return unpaired(" ".join(f"{kind}{at}" for kind in kinds.split() for at in range(1, COLUMNS + 1)))


def spanning_cells(kinds: str) -> list[Marker]:
    """Cells from each column to each later one."""
    spans = [f"{a}-{b}" for a in range(1, COLUMNS + 1) for b in range(a + 1, COLUMNS + 1)]
    return unpaired(" ".join(f"{kind}{span}" for kind in kinds.split() for span in spans))


CHAPTERS = {
    "Identification": [
        *paragraphs("id usfm ide sts rem h h1 h2 h3 toc1 toc2 toc3 toca1 toca2 toca3"),
    ],
    "Introductions": [
        *paragraphs("imt imt1 imt2 imt3 imt4 is is1 is2 ip ipi im imi ipq imq ipr iq iq1 iq2 iq3 ib ili ili1 ili2"),
        *paragraphs("iot io io1 io2 io3 io4"),
        *characters("ior iqt"),
        *paragraphs("iex imte imte1 imte2 ie"),
    ],
    "Titles, headings and labels": [
        *paragraphs("mt mt1 mt2 mt3 mt4 mte mte1 mte2 ms ms1 ms2 ms3 mr s s1 s2 s3 s4 s5 sr r"),
        *characters("rq"),
        *paragraphs("d sp sd sd1 sd2 sd3 sd4"),
    ],
    "Chapters and verses": [
        *paragraphs("c"),
        *characters("ca"),
        *paragraphs("cl cp cd"),
        *unpaired("v"),
        *characters("va vp"),
    ],
    "Paragraphs": [
        *paragraphs("p m po pr cls pmo pm pmc pmr pi pi1 pi2 pi3 mi nb pc ph ph1 ph2 ph3"),
    ],
    "Poetry": [
        *paragraphs("q q1 q2 q3 q4 qr qc"),
        *characters("qs"),
        *paragraphs("qa"),
        *characters("qac"),
        *paragraphs("qm qm1 qm2 qm3 qd b"),
    ],
    "Lists": [
        *paragraphs("lh li li1 li2 li3 li4 lf lim lim1 lim2 lim3 lim4"),
        *characters("litl lik liv liv1 liv2 liv3 liv4 liv5"),
    ],
    "Tables": [
        *paragraphs("tr"),
        *cells("th thr thc tc tcr tcc"),
        *spanning_cells("th thr thc tc tcr tcc"),
    ],
    "Footnotes": [
        *notes("f fe"),
        *characters("fr fq fqa fk fl fw fp fv ft fdc fm"),
    ],
    "Cross references": [
        *notes("x"),
        *characters("xo xop xk xq xt xta xot xnt xdc"),
    ],
    "Words and characters": [
        *characters("add bk dc k"),
        *paragraphs("lit"),
        *characters("nd ord pn png addpn qt sig sls tl wj"),
        *characters("em bd it bdit no sc sup"),
        *paragraphs("pb"),
        *characters("fig ndx rb pro w wg wh wa jmp"),
    ],
    "Milestones": [
        *milestones("qt-s qt1-s qt2-s qt3-s qt4-s qt5-s ts-s"),
        Marker("ts", "Milestone"),
    ],
    "Extended study content": [
        *notes("ef ex"),
        *paragraphs("esb esbe"),
        *characters("cat"),
    ],
    "Peripherals": [
        *paragraphs("periph"),
    ],
}
MARKERS = [marker for chapter in CHAPTERS.values() for marker in chapter]

PARAGRAPHS = [marker.name for marker in MARKERS if marker.style_type == "Paragraph"]
NOTES = [marker.name for marker in MARKERS if marker.style_type == "Note"]
# Characters that have an end. Of the others, verses' numbers and cells, no check says where they stand.
CHARACTERS = [marker.name for marker in MARKERS if marker.style_type == "Character" and marker.end]

# Paragraphs whose text is Scripture.
SCRIPTURE = (
    "d p m po pr cls pmo pm pmc pmr pi pi1 pi2 pi3 mi nb pc ph ph1 ph2 ph3 q q1 q2 q3 q4 qr qc qm qm1 qm2 qm3 qd b "
    "lh li li1 li2 li3 li4 lf lim lim1 lim2 lim3 lim4 tr"
).split()

# Paragraphs that have no running text: identification, numbers, breaks, and what only begins or ends a part.
WITHOUT_TEXT = (
    "id usfm ide sts rem h h1 h2 h3 toc1 toc2 toc3 toca1 toca2 toca3 ib ie sd sd1 sd2 sd3 sd4 c b pb esb esbe periph"
).split()

# Characters that may stand in any running text, in notes, and within other characters.
ANYWHERE = (
    "xt add bk dc k nd ord pn png addpn qt sig sls tl wj em bd it bdit no sc sup ndx rb pro w wg wh wa jmp"
).split()

OF_FOOTNOTES = "fr fq fqa fk fl fw fp fv ft fdc".split()
OF_CROSS_REFERENCES = "xo xop xk xq xta xot xnt xdc".split()
OF_LISTS = "litl lik liv liv1 liv2 liv3 liv4 liv5".split()


def introductions() -> list[str]:
    """Paragraphs of introductions that have text."""
    names = [marker.name for marker in CHAPTERS["Introductions"] if marker.style_type == "Paragraph"]
    return [name for name in names if name not in WITHOUT_TEXT]


def paragraphs_of(name: str) -> list[str]:
    """The paragraphs in which a character or a note may stand."""
    running = [it for it in PARAGRAPHS if it not in WITHOUT_TEXT]
    poetry = "q q1 q2 q3 q4 qr qc qm qm1 qm2 qm3".split()
    places = {
        "ior": "io io1 io2 io3 io4".split(),
        "iqt": introductions(),
        "rq": [it for it in SCRIPTURE if it not in ("d", "b")],
        "ca": ["c"],
        "va": [it for it in SCRIPTURE if it != "b"],
        "vp": [it for it in SCRIPTURE if it != "b"],
        "qs": [*poetry, "qd"],
        "qac": poetry,
        "cat": ["esb"],
        **dict.fromkeys(OF_LISTS, "li li1 li2 li3 li4 lim lim1 lim2 lim3 lim4".split()),
        **dict.fromkeys([*OF_FOOTNOTES, *OF_CROSS_REFERENCES], []),
        **dict.fromkeys([*ANYWHERE, *NOTES, "fm", "fig"], running),
    }
    return places[name]


def notes_of(name: str) -> list[str]:
    """The notes in which a character may stand directly."""
    if name in OF_FOOTNOTES:
        return ["f", "fe", "ef"]
    if name in OF_CROSS_REFERENCES:
        return ["x", "ex"]
    return NOTES if name in (*ANYWHERE, "cat") else []


def may_nest(name: str, around: str) -> bool:
    """Whether a character may stand within another one, with a `+`."""
    if name == "fv":
        return around in "fq fqa fk fl fw fp ft".split()
    if name in ("xta", "xot", "xnt", "xdc"):
        return around == "xt"
    return name in (*ANYWHERE, *OF_LISTS, "ior", "iqt", "rq", "va", "vp", "qs", "qac", "fm")
