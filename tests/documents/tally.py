"""What was checked, and the files of the repository."""
import os
import re
import subprocess
from functools import cache

from repository import TOP, program_given

counts = [0, 0]


def check(holds, what):
    """Counts a check, and says what is wrong where it does not hold."""
    counts[not holds] += 1
    if not holds:
        print(what)


def text_of(path):
    return (TOP / path).read_text()


def pages():
    """The pages that a reader opens."""
    first = [TOP / "README.md", TOP / "PROMISES.md", TOP / "CONTRIBUTING.md"]
    return [*first, *sorted((TOP / "docs").glob("*.md")), *sorted((TOP / "crates").glob("*/README.md"))]


def name_of(page):
    """A page by its path in the repository."""
    return page.relative_to(TOP).as_posix()


@cache
def crates():
    """The crates of crates.txt, and of each the crates that it builds on, those from elsewhere among them."""
    lines = [line.split("#")[0].partition(":") for line in text_of("crates.txt").splitlines()]
    return {name.strip(): words.split() for name, _, words in lines if name.strip()}


@cache
def kept_files():
    """The files that git keeps, by their paths, without packed branches that are not merged and the program."""
    words = ["ls-files", "-co", "-z", "--exclude-standard", "--", ":!release/usfm_team"]
    # The repository may be another user's than who looks at it.
    listed = subprocess.run(["git", "-c", "safe.directory=*", "-C", TOP, *words], stdout=subprocess.PIPE, check=True)
    return [path for path in map(os.fsdecode, listed.stdout.split(b"\0")) if (TOP / path).is_file()]


@cache
def sources_of(crate):
    """All sources of a crate, one after another."""
    return "".join(it.read_text() for it in sorted((TOP / "crates" / crate / "src").rglob("*.rt")))


def program(*words):
    """What the program prints."""
    return subprocess.run([program_given(), *words], stdout=subprocess.PIPE, text=True, check=True).stdout


def numbers_in(text):
    """The numbers of a text such as `40, 41, 42 *line*`, `60 to 70` or `fault 120, fault 121`."""
    found = set()
    for first, last in re.findall(r"\b(\d+)(?: to (\d+))?", text):
        found |= set(range(int(first), int(last or first) + 1))
    return found
