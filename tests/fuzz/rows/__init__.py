"""Worked examples that were computed by hand from the rules. The second implementation has to give them."""
from . import calls

# What a row is about, what was found, and what is wanted.
Row = tuple[str, object, object]


def all_rows() -> list[Row]:
    """All rows of single calls."""
    found: list[Row] = []
    for part in calls.PARTS:
        about = part.__doc__.rstrip(".")
        found += [(f"{about}, {place}", *row) for place, row in enumerate(part(), start=1)]
    return found


def failures() -> list[str]:
    """What is wrong, a line for each row that is not met."""
    wrong = [row for row in all_rows() if row[1] != row[2]]
    return [f"{about}: {found!r}, where {wanted!r} is wanted" for about, found, wanted in wrong]
