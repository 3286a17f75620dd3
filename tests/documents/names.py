"""What the documents name: files, calls, laws, clauses, tests and edits."""
import os
import re

from tally import TOP, check, kept_files, name_of, pages, sources_of, text_of

# A path of the repository between backticks, perhaps with words after it.
PATH = re.compile(r"`((?:\./)?(?:\.ci|bench|build|compile-fail|completions|crates|docs|edits|release|samples|tests)(?:/[\w./-]+)?)((?: [^`]*)?)`")
CALL = re.compile(r"`([a-z]+_[a-z]+|concordance)::((?:\w+::)*)(\{[^}]*\}|\w+)`")
CLAUSES = re.compile(r"`(\w+)::(?:\w+::)*(\w+)`, clauses? ((?:`\w+`(?:, | and )?)+)")
ROW = re.compile(r"^\| .* \|$", re.M)


def anchors(page):
    """What a link may name in a page, after the #: its titles in lower case, with a hyphen for each space, and no other sign."""
    titles = re.findall(r"^#+ (.+)$", page.read_text(), re.M)
    return {re.sub(r"[^\w-]", "", it.lower().replace(" ", "-")) for it in titles}


def check_links():
    """Each file that a page links to is there, and has the title that the link names."""
    for page in pages():
        for link, title in re.findall(r"\]\(([^)#:]*)(?:#([^)]*))?\)", page.read_text()):
            file = page.parent / link if link else page
            check(file.exists(), f"{name_of(page)} links to {link}, which is not there")
            check(not title or file.exists() and title in anchors(file), f"{name_of(page)} links to {link}#{title}, which has no such title")


def check_codes():
    """The walk-through says of each code of a check what it means, and of no other."""
    codes = re.findall(r"=> \"([a-z-]+)\"", text_of("crates/segment_check/src/code.rt"))
    named = re.findall(r"^\| `([a-z-]+)` \|", text_of("docs/WALKTHROUGH.md"), re.M)
    check(codes and named == codes, f"WALKTHROUGH.md has not the codes {codes}, in this order")


def check_outputs():
    """FORMATS says of each subcommand what it writes."""
    names = re.findall(r"^        \"([a-z-]+)\" => \w+_line\(", text_of("crates/command_line/src/usage.rt"), re.M)
    table = text_of("docs/FORMATS.md").split("## What commands write")[1].split("\n## ")[0]
    said = {name for row in ROW.findall(table) for name in re.findall(r"`([^`]*)`", row.split(" | ")[0])}
    check(len(names) > 15 and set(names) <= said, f"FORMATS.md does not say what {sorted(set(names) - said)} write")


def check_paths():
    """Each path of the repository that a page names is there, but for what is built, and a command line begins with a program."""
    for page in pages():
        for path, words in PATH.findall(page.read_text()):
            file = TOP / path
            check(file.exists() or "/out/" in path, f"{name_of(page)} names {path}, which is not there")
            if words and file.is_file():
                check(os.access(file, os.X_OK), f"{name_of(page)} has the command {path}{words}, and {path} is no program")


def check_calls(page):
    """Each call and law that the page names is in its crate, and each clause in the call's contract."""
    text = page.read_text()
    for crate, path, names in CALL.findall(text):
        sources = sources_of(crate)
        for name in re.findall(r"\w+", path + names):
            check(re.search(rf"\b(fn|struct|enum|trait|mod|const) {name}\b", sources), f"{name_of(page)}: {crate} has no {path}{name}")
    for crate, name, clauses in CLAUSES.findall(text):
        contracts = re.findall(rf"\bpub fn {name}\b.*?\n *\{{\n", sources_of(crate), re.S)
        for clause in re.findall(r"\w+", clauses.replace(" and ", " ")):
            check(any(f"ensures {clause} {{" in it for it in contracts), f"{name_of(page)}: {crate}::{name} has no clause {clause}")


def check_tests(page):
    """Each test and each play of rows that the last column of a table names is in a crate, or in a file of rows."""
    tests = "".join(text_of(path) for path in kept_files() if re.search(r"/src/tests.*\.rt$", path))
    plays = [line for path in kept_files() if path.endswith(".rows") for line in text_of(path).splitlines()]
    for row in ROW.findall(text_of(page)):
        for name in re.findall(r"`(\w+)`", row.split(" | ")[-1]):
            check(re.search(rf"\b(fn|const) {name}\b", tests), f"{page}: no test has {name}")
        for title in re.findall(r"\*([^*]+)\*", row.split(" | ")[-1]):
            check(f"# {title}" in plays, f"{page}: no play of rows has the title {title}")


def check_edits():
    """Each edit that the prover has to refuse still fits the sources that it edits."""
    wrong = [f"{path}: {why}" for path in kept_files() if path.endswith(".edit") for why in misfits(path)]
    check(not wrong, "\n".join(wrong))


def misfits(path):
    """Why an edit does not fit: its crate has no such file, or a text that it replaces does not stand there once."""
    lines = text_of(path).splitlines()
    files = [it[len("file: ") :] for it in lines if it.startswith("file: ")]
    pairs = [it for it in lines if it.startswith(("old: ", "new: "))]
    file = TOP / "crates" / path.split("/")[1] / (files[0] if files else "")
    if len(files) != 1 or not file.is_file() or not pairs or len(pairs) % 2:
        yield "it is no edit of a file of its crate"
        return
    text = file.read_text()
    for old, new in zip(pairs[::2], pairs[1::2]):
        if not (old.startswith("old: ") and new.startswith("new: ") and text.count(old[len("old: ") :]) == 1):
            yield f"{old!r}, {new!r}"
        text = text.replace(old[len("old: ") :], new[len("new: ") :], 1)
