"""The diagram of the crates in docs/ARCHITECTURE.md, and its table, by what crates.txt says."""
import re
from functools import cache

from tally import check, crates, text_of

PAGE = "docs/ARCHITECTURE.md"
# A line of a crate: its name, what goes in and out, and the crates that it stands on; and a line that goes on with these.
ROW = re.compile(r"^      (\w+)  +(\S.*?)(?:  +([\w ]+))?$")
MORE = re.compile(r"^ {40,}([\w ]+)$")


def drawn():
    """The crates of the diagram from top to bottom, each with what goes in and out, and the names of those that it stands on."""
    found = []
    for line in text_of(PAGE).split("\n## The layers\n")[1].split("\n## ")[0].splitlines():
        row, more = ROW.match(line), MORE.match(line)
        if more and found:
            found[-1][2].extend(more[1].split())
        elif row and row[1] != "CRATE":
            found.append((row[1], row[2], (row[3] or "").split()))
    return found


@cache
def all_below(name):
    """The crates of the project that a crate builds on, directly and through others."""
    direct = [it for it in crates()[name] if it in crates()]
    return frozenset(direct).union(*map(all_below, direct))


def check_diagram():
    """Each crate is drawn once, above those that it builds on, with those of them to which no other one leads."""
    known, rows = crates(), drawn()
    names = [row[0] for row in rows]
    check(sorted(names) == sorted(known), f"{PAGE}: the diagram lacks, or has too often, {sorted(set(known) ^ set(names)) or names}")
    for at, (name, flow, stands_on) in enumerate(rows):
        if name not in known:
            continue
        direct = {it for it in known[name] if it in known}
        nearest = {it for it in direct if not any(it in all_below(other) for other in direct)}
        check(set(stands_on) == nearest and len(stands_on) == len(nearest), f"{PAGE}: {name} stands on {sorted(nearest)}")
        check(direct <= set(names[at + 1 :]), f"{PAGE}: {name} is drawn below {sorted(direct - set(names[at + 1 :]))}")
        check("->" in flow, f"{PAGE}: the diagram does not say what goes into {name} and comes out of it")


def check_table():
    """The table of the crates has a row for each, and no other."""
    named = re.findall(r"^\| \[`(\w+)`\]\(\.\./crates/\1/README\.md\) \| \S", text_of(PAGE), re.M)
    check(sorted(named) == sorted(crates()), f"{PAGE}: the table of the crates differs in {sorted(set(crates()) ^ set(named)) or named}")
