"""The layout of the crates' files: their lengths and widths, and comments on what other crates cite."""
import re
from collections import defaultdict

from tally import TOP, check, kept_files, text_of

MOST_LINES, WIDEST_CLAUSE, WIDEST_PROOF = 400, 100, 140
CODE = re.compile(r"\.(rt|antt|py|sh|bash|fish|awk|rs|c)$")
TESTS = re.compile(r"^crates/(usfm_team|\w+/src/tests)\b")
# A file that a script writes is as long and as wide as what it is written from.
WRITTEN = ["crates/carried_sheet/src/sheet.rt", "crates/carried_versification/src/versification.rt"]
# Lines that may be as wide as they are: comments, imports and attributes.
WIDE = re.compile(r"\s*(//|--|#\[|(pub )?(ghost )?use )")
CITED = re.compile(r"^use Rattle\.(\w+)\.proofs\.([\w.]+)\.\{([^}]*)\}", re.M)


def is_code(path):
    """Whether a file is code: by the end of its name, or since it begins as a script does."""
    return bool(CODE.search(path)) or (TOP / path).read_bytes().startswith(b"#!")


def check_length(path, lines):
    check(len(lines) <= MOST_LINES, f"{path} has {len(lines)} lines, and {MOST_LINES} are the most")


def check_width(path, lines):
    """No clause and no definition is wider than 100 columns, and no line of a proof wider than 140."""
    widest = WIDEST_PROOF if "/proofs/" in path else WIDEST_CLAUSE
    wide = [at for at, line in enumerate(lines, 1) if len(line) > widest and not WIDE.match(line)]
    check(not wide, f"{path}: lines {wide} are wider than {widest} columns")


def check_comments(files):
    """Each lemma that another crate cites has a comment directly above it."""
    cited = defaultdict(set)
    for path in files:
        for crate, module, names in CITED.findall(text_of(path)):
            if path.split("/")[1] != crate:
                cited[f"crates/{crate}/proofs/{module.replace('.', '/')}.antt"] |= {it.strip().split(" as ")[0] for it in names.split(",")}
    for path, names in sorted(cited.items()):
        lines = text_of(path).splitlines() if path in files else []
        for at, line in enumerate(lines):
            found = re.match(r"(?:(?:abbrev|unfoldable) )?pub (?:record |data )?([^\s:(){}]+)", line)
            if found and found[1] in names:
                check(lines[at - 1].startswith("-- "), f"{path}:{at + 1}: {found[1]} is cited by another crate, and has no comment")


def check_layout():
    files = [it for it in kept_files() if is_code(it)]
    for path in files:
        lines = text_of(path).splitlines()
        if path not in WRITTEN:
            check_length(path, lines)
        if path.startswith("crates/") and not TESTS.match(path) and path not in WRITTEN:
            check_width(path, lines)
    check_comments([it for it in files if it.startswith("crates/") and it.endswith(".antt")])
