"""The README of each crate: what it says of crates.txt, of the crate's own files and names, and of its laws."""
import re

from tally import TOP, check, crates, kept_files, sources_of, text_of

FEWEST_LINES, MOST_LINES, WIDEST = 12, 35, 100
# A file or a folder of the crate, and a name: of a call, a type, a law, a definition or a crate.
FILE = re.compile(r"(?:src|specs|proofs|must-fail)(?:/[\w./+-]+)?|stdin|stdout|data")
NAME = re.compile(r"[A-Za-z_]\w*(?:::\w+)*")
ITEM = re.compile(r"^- ((?:`[\w:]+`(?:,\s+)?)+):\s", re.M)
# Names that are std's.
OF_STD = {"cmp"}
LINK = re.compile(r"\]\((\.\./[^)#]*\.md)")


def spans(text):
    """What stands between backticks in a text."""
    return re.findall(r"`([^`\n]+)`", text)


def paragraphs(text):
    """The paragraphs of a page, each in one line, and each list in one."""
    return [" ".join(it.split()) for it in text.split("\n\n")]


def law_lists(text):
    """The lists of laws of a README: each stands after a paragraph that begins so."""
    blocks = text.split("\n\n")
    return [after for before, after in zip(blocks, blocks[1:]) if re.match(r"Laws?\b", before) and after.startswith("- ")]


def laws_of(crate):
    """The laws of a crate, each after the module that it is in, which for those of src/laws.rt itself is none."""
    found = set()
    for path in kept_files():
        part = re.fullmatch(rf"crates/{crate}/src/laws(?:/(\w+))?\.rt", path)
        if part:
            found |= {(part[1], name) for name in re.findall(r"^pub fn (\w+)", text_of(path), re.M)}
    return found


def specs_of(crate):
    """All definitions of a crate, one file after another."""
    return "\n".join(it.read_text() for it in sorted((TOP / "crates" / crate / "specs").rglob("*.antt")))


def is_there(name, sources, specs):
    """Whether a crate has something of a name: an item of its code, one that it hands on, or a definition."""
    return any((
        re.search(rf"\b(fn|struct|enum|trait|mod|const|type) {name}\b", sources),
        re.search(rf"\bpub use [^;]*\b{name}\b", sources),
        re.search(rf"^(?:(?:abbrev|unfoldable) )?pub (?:record |data )?{name}\b", specs, re.M),
    ))


def check_shape(crate, text):
    """A README has its crate's name as the title, and is short but for its laws."""
    where, lines = f"crates/{crate}/README.md", text.splitlines()
    others = len(lines) - sum(len(it.splitlines()) for it in law_lists(text))
    check(lines[0] == f"# {crate}", f"{where} does not begin with # {crate}")
    check(len(lines) >= FEWEST_LINES and others <= MOST_LINES, f"{where} has {len(lines)} lines, {others} of them without laws")
    wide = [at for at, line in enumerate(lines, 1) if len(line) > WIDEST]
    check(not wide, f"{where}: lines {wide} are wider than {WIDEST} columns")


def check_neighbours(crate, text):
    """A README says on which crates its crate builds, and which use it, as crates.txt does."""
    where, all_crates = f"crates/{crate}/README.md", crates()
    said = next((it for it in paragraphs(text) if it.startswith("Builds on ")), "")
    below, _, above = said.partition(" Used by ")
    named, uses = set(spans(below)), set(all_crates[crate])
    check(named <= uses and named & set(all_crates) == uses & set(all_crates), f"{where}: the crate builds on {sorted(uses)}")
    users = {it for it, words in all_crates.items() if crate in words}
    told = set(spans(above))
    if above.startswith("every crate but "):
        told = set(all_crates) - told - {crate}
    only_some = "among others" in above and told < users
    check(told == users or only_some, f"{where}: the crate is used by {sorted(users)}")


def check_names(crate, text):
    """Each file that a README names is in its crate, and so is each name, but for those of the crates that it builds on."""
    where, sources, specs = f"crates/{crate}/README.md", sources_of(crate), specs_of(crate)
    known = {*OF_STD, *crates(), *crates()[crate]}
    for span in spans(text):
        if FILE.fullmatch(span):
            check((TOP / "crates" / crate / span).exists(), f"{where} names {span}, which is not there")
        elif NAME.fullmatch(span) and span.split("::")[0] not in known:
            lacked = [it for it in span.split("::") if not is_there(it, sources, specs)]
            check(not lacked, f"{where}: the crate has no {span}")


def check_laws(crate, text):
    """A README has each law of its crate, or the module of it and a link to a page that has the law; and it lists no others."""
    where, laws, lists = f"crates/{crate}/README.md", laws_of(crate), law_lists(text)
    check(bool(laws) == bool(lists) == ("no laws" not in text), f"{where}: the crate has {len(laws)} laws")
    told = {name for part in lists for names in ITEM.findall(part) for name in spans(names)}
    for module, name in sorted(laws, key=str):
        if module is not None and f"laws::{module}" in told:
            item = next(it for part in lists for it in re.split(r"^- ", part, flags=re.M) if f"`laws::{module}`" in it)
            linked = [TOP / "crates" / crate / it for it in LINK.findall(item)]
            listed = any(f"`{name}`" in it.read_text() for it in linked if it.is_file())
            check(listed, f"{where}: no page that it links to has the law laws::{module}::{name}")
        else:
            check(name in told, f"{where} does not have the law {name}")
    others = told - {name for _, name in laws} - {f"laws::{module}" for module, _ in laws}
    check(not others, f"{where}: the crate has no laws {sorted(others)}")


def check_readmes():
    for crate in crates():
        page = TOP / "crates" / crate / "README.md"
        check(page.is_file(), f"crates/{crate} has no README.md")
        if page.is_file():
            for checked in (check_shape, check_neighbours, check_names, check_laws):
                checked(crate, page.read_text())
