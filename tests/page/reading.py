"""What a page says, read from its HTML."""
import base64
import hashlib
import re
from dataclasses import dataclass, field
from html.parser import HTMLParser
from pathlib import Path
from typing import Optional

SCRIPT = (Path(__file__).resolve().parents[2] / "crates/project_page/answers.js").read_text()
# The elements that a page has, each with the attributes that it may have.
ELEMENTS = {
    "html": {"lang"}, "head": set(), "meta": {"charset", "name", "content", "http-equiv"}, "title": set(), "style": set(), "script": set(), "body": set(),
    "h1": set(), "h2": {"id"}, "h3": set(), "h4": set(), "dl": set(), "dt": set(), "dd": set(), "a": {"href"},
    "table": set(), "caption": set(), "tr": set(), "th": {"scope"}, "td": set(), "span": {"class"}, "fieldset": {"data-ids"}, "legend": set(),
    "div": {"class"}, "p": {"class", "dir", "lang"}, "label": set(), "input": {"type"}, "bdi": set(), "mark": set(),
}
VOID = ("meta", "input")
# A control character but a line feed, a bidirectional control, and a noncharacter.
CONTROL = re.compile(r"[\x00-\x09\x0b-\x1f\x7f-\x9f]")
DIRECTION = re.compile("[\u202a-\u202e\u2066-\u2069]")
NONCHARACTER = re.compile("[\ufdd0-\ufdef" + "".join(chr(it << 16 | 0xFFFE) + chr(it << 16 | 0xFFFF) for it in range(17)) + "]")
REFERENCE = re.compile(r"&(?:amp|lt|gt|quot|#39);")


def shown(text: str) -> str:
    """A text as a page has it: control characters but line feeds spelled out, and U+FFFD for each noncharacter."""
    text = CONTROL.sub(lambda it: f"\\x{ord(it[0]):02x}", text)
    text = DIRECTION.sub(lambda it: f"\\u{ord(it[0]):04x}", text)
    return NONCHARACTER.sub("\ufffd", text)


@dataclass
class Text:
    """One of the texts of a conflict."""

    label: str
    by: str = ""
    is_picked: bool = False
    text: str = ""
    kept: str = ""


@dataclass
class Conflict:
    name: str
    ids: list[str] = field(default_factory=list)
    texts: list[Text] = field(default_factory=list)
    repeated: list[str] = field(default_factory=list)
    before: str = ""
    after: str = ""


@dataclass
class Page:
    """All that a page says, and what is wrong with its HTML."""

    faults: list[str] = field(default_factory=list)
    rows: list[tuple[str, str]] = field(default_factory=list)
    chapters: list[str] = field(default_factory=list)
    shades: list[str] = field(default_factory=list)
    conflicts: list[Conflict] = field(default_factory=list)
    counts: list[str] = field(default_factory=list)
    awaited: list[str] = field(default_factory=list)
    boxes: int = 0


class Reader(HTMLParser):
    """Reads a page, element by element."""

    def __init__(self) -> None:
        super().__init__(convert_charrefs=True)
        self.page = Page()
        # The elements that are open, each with its class and the text in it so far.
        self.open: list[tuple[str, str, list[str]]] = []
        self.book = ""
        self.term = ""
        self.near = ""
        self.ids: list[str] = []

    def handle_starttag(self, tag: str, attrs: list[tuple[str, Optional[str]]]) -> None:
        given = dict(attrs)
        if tag not in ELEMENTS or not given.keys() <= ELEMENTS[tag]:
            self.page.faults.append(f"<{tag} {given}>")
        if "href" in given and given["href"] not in ("#conflicts", "#awaited"):
            self.page.faults.append(f"a reference to {given['href']}")
        if tag == "fieldset":
            self.ids = (given.get("data-ids") or "").split(" ")
        self.page.boxes += tag == "input" and given.get("type") == "checkbox"
        if tag not in VOID:
            self.open.append((tag, given.get("class") or "", []))

    def handle_data(self, data: str) -> None:
        for _, _, texts in self.open:
            texts.append(data)
        if any(kind == "said" for _, kind, _ in self.open) and not any(tag == "mark" for tag, _, _ in self.open):
            self.page.conflicts[-1].texts[-1].kept += data

    def handle_endtag(self, tag: str) -> None:
        if not self.open or self.open[-1][0] != tag:
            self.page.faults.append(f"</{tag}> in {[it[0] for it in self.open]}")
            return
        _, kind, texts = self.open.pop()
        self.ended(tag, kind, "".join(texts))

    def ended(self, tag: str, kind: str, text: str) -> None:
        """Takes in an element that has ended."""
        page = self.page
        if tag == "dt":
            self.term = text
        elif tag == "dd":
            page.rows.append((self.term, text))
        elif tag == "th":
            self.book = text
        elif tag == "span" and kind.startswith("chapter ") and self.open[-1][0] == "td":
            chapter, written, _, verses = text.replace(":", "").split()
            page.chapters.append(f"{self.book} {chapter} {written} of {verses}")
            page.shades.append(kind.split()[1])
        elif tag == "h2" and ": " in text:
            page.counts.append(text)
        elif tag == "h3":
            page.conflicts.append(Conflict(text, self.ids[1:]))
        elif tag == "h4":
            self.near = text
        elif tag == "label":
            page.conflicts[-1].texts.append(Text(text))
        elif tag == "p":
            self.line_ended(kind, text)

    def line_ended(self, kind: str, text: str) -> None:
        """Takes in a line or a text that has ended."""
        page = self.page
        if not any(it[0] == "fieldset" for it in self.open):
            page.awaited.append(text)
        elif kind == "said near" and self.near == "Before it":
            page.conflicts[-1].before = text
        elif kind == "said near":
            page.conflicts[-1].after = text
        elif kind == "said":
            page.conflicts[-1].texts[-1].text = text
        elif kind == "picked":
            page.conflicts[-1].texts[-1].is_picked = text.startswith("In the book")
        elif text.startswith("by "):
            page.conflicts[-1].texts[-1].by = text
        elif text != "No text":
            page.conflicts[-1].repeated.append(text)


def policed(page: Page, text: str) -> tuple[str, list[str]]:
    """A page without its scripts, and these. Its policy permits one style and one script, by their digests, and nothing else."""
    styles, scripts = (re.findall(f"<{it}>(.*?)</{it}>", text, re.S) for it in ("style", "script"))
    policy = re.search(r'<meta http-equiv="Content-Security-Policy" content="([^"]*)">', text)
    wanted = ["default-src 'none'", "img-src data:", *(f"style-src '{digest(it)}'" for it in styles)]
    wanted += [f"script-src '{digest(it)}'" for it in scripts]
    if not policy or [it.strip() for it in policy[1].split(";")] != wanted:
        page.faults.append("the policy is not that of its style and its script")
    return re.sub("<script>.*?</script>", "<script></script>", text, flags=re.S), scripts


def digest(text: str) -> str:
    return f"sha256-{base64.b64encode(hashlib.sha256(text.encode()).digest()).decode()}"


def read_page(data: bytes) -> Page:
    """What a page says, with what is wrong with it."""
    text = data.decode()
    reader = Reader()
    reader.feed(text)
    reader.close()
    page = reader.page
    page.faults += [f"{it[0]} is left open" for it in reader.open]
    if not text.startswith("<!DOCTYPE html>\n"):
        page.faults.append("no doctype")
    page.faults += [f"{it} stands there" for it in ("://", "url(", "@import", "javascript:") if it in text]
    text, scripts = policed(page, text)
    if scripts != [f"\n{SCRIPT}"]:
        page.faults.append("another script than answers.js")
    page.faults += [f"the control character {ord(it)}" for it in CONTROL.findall(text)]
    page.faults += [f"the bidirectional control {ord(it)}" for it in DIRECTION.findall(text)]
    page.faults += [f"the noncharacter {ord(it)}" for it in NONCHARACTER.findall(text)]
    page.faults += [f"a lone & at {it.start()}" for it in re.finditer("&", text) if not REFERENCE.match(text, it.start())]
    return page
