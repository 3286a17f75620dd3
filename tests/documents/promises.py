"""PROMISES.md: twelve theorems with the files of their definitions, and a table whose cells are short."""
import re

from tally import TOP, check, text_of

PAGE = "PROMISES.md"
THEOREMS, MOST_WORDS = 12, 80
COLUMNS = "| Claim | Carried by | State | Premises |"
THEOREM = re.compile(r"^\d+\. \*\*.*?(?=^\d+\. \*\*|\Z)", re.M | re.S)
# A file of definitions, by its path below crates/.
FILE = re.compile(r"`(\w+/specs/[\w/]+\.antt)`")


def check_theorems():
    """Each of the twelve theorems names what carries it and the files of its definitions, which are there."""
    page = text_of(PAGE).split("\n## Twelve theorems\n")[1].split("\n## ")[0]
    found = THEOREM.findall(page)
    check(len(found) == THEOREMS, f"{PAGE} has {len(found)} theorems")
    for theorem in found:
        name, files = theorem.split("**")[1], FILE.findall(theorem)
        check(files and re.search(r"`\w+::", theorem), f"{PAGE}: '{name}' names no law or call, or no file of definitions")
        lacked = [it for it in files if not (TOP / "crates" / it).is_file()]
        check(not lacked, f"{PAGE}: there is no {lacked}")


def check_cells():
    """Each row has a claim, what carries it, its state and its premises, none of them long or ended by a full stop."""
    for at, line in enumerate(text_of(PAGE).splitlines(), 1):
        if line.startswith("| ") and line != COLUMNS:
            cells = [it.strip() for it in re.split(r" \|(?= |$)", line[1:])][:-1]
            check(len(cells) == 4, f"{PAGE}:{at} has {len(cells)} cells: a claim, what carries it, its state and its premises are due")
            long = [len(it.split()) for it in cells if len(it.split()) > MOST_WORDS]
            check(not long, f"{PAGE}:{at} has cells of {long} words, and {MOST_WORDS} are the most")
            check(not any(it.endswith(".") for it in cells), f"{PAGE}:{at} has a cell that ends with a full stop")


def check_promises():
    check_theorems()
    check_cells()
