"""The pages for translators: how much they ask of a reader before the first command, and that each thing has one name."""
import re

from tally import check, text_of

MOST_WORDS, MOST_BEFORE = 1300, 250
# Where the first exchange begins, by its first command.
EXCHANGE = "    $ mkdir box ana "
# The pages for translators.
PAGES = ["README.md", "docs/WALKTHROUGH.md", "docs/DISK.md", "docs/SHEET.md"]
# Other words for an edit, which engineers' pages use.
OTHERS = re.compile(r"\boperations?\b", re.I)


def check_length():
    """README is read to its end, and its first exchange comes soon."""
    text = text_of("README.md")
    before, found, _ = text.partition(EXCHANGE)
    check(len(text.split()) <= MOST_WORDS, f"README.md has {len(text.split())} words, and {MOST_WORDS} are the most")
    check(found and len(before.split()) < MOST_BEFORE, f"README.md: {len(before.split())} words come before the first exchange")


def check_one_name():
    """An edit is called so, and by no other word; what a program writes may have another."""
    for page in PAGES:
        prose = "\n".join(line for line in text_of(page).splitlines() if not line.startswith("    "))
        found = OTHERS.findall(re.sub(r"`[^`]*`", "", prose))
        check(not found, f"{page} has {sorted(set(found))} for an edit")


def check_readers():
    check_length()
    check_one_name()
