"""Counts the instructions of a program's run, as valgrind tells them into a file."""
import re
import sys

COUNTED = re.compile(r"I +refs: +([0-9,]+)")


def counting(log: str) -> list[str]:
    """The words that come before a program and its own."""
    return ["valgrind", "--tool=cachegrind", "--cache-sim=no", "--cachegrind-out-file=/dev/null", f"--log-file={log}"]


def counted(log: str) -> int:
    """How many instructions the run took."""
    with open(log) as told:
        found = COUNTED.search(told.read())
    if found is None:
        sys.exit(f"valgrind tells no instructions in {log}")
    return int(found[1].replace(",", ""))
