"""What is done with a folder of books' files, as a plan."""
from dataclasses import dataclass, field
from typing import Callable, Optional, Sequence

from .bundles import read_whole_bundle, write_bundle
from .faults import Fault
from .folders import OLDER, BookFile, Kept, Wishes, book_begun, books_of, come_in, conflicts, is_code, is_there, of_path, written_from
from .likes import in_manner_of, is_like, is_mixed
from .operations import Operation, Set, agree, awaited, export, join, keys_of, set_of, shown
from .references import book_rank
from .replicas import Replica

MOST_NAMED = 20


@dataclass
class Plan:
    """What is to be done with a folder: what its files were written from, as these were read and as they are to be, the books' new
    files by their paths, and names, where they change."""

    replica: Replica
    now: bytes
    base: bytes
    files: dict[str, tuple[str, bytes]]
    names: Optional[dict[str, str]]
    told: bytes = b""
    notes: list[bytes] = field(default_factory=list)


def write_names(names: dict[str, str]) -> bytes:
    return "".join(f"{book} {names[book]}\n" for book in sorted(names, key=book_rank)).encode()


def all_shown(held: Set, books: Sequence[str]) -> list[Operation]:
    return [op for book in books for key in keys_of(held, book) for op in shown(held, book, key)]


def base_of(held: Set, books: Sequence[str]) -> bytes:
    """The bundle of what books show."""
    return write_bundle(set_of(all_shown(held, books)))


def base_as_read(base: Set, held: Set, stood: list) -> bytes:
    """The bundle that makes the files as they were read."""
    texts: dict = {}
    for book, key, text in stood:
        texts.setdefault((book, key), text)
    kept = [it for it in all_shown(base, books_of(base)) if (it.book, it.key) not in texts]
    found = [it for it in all_shown(held, books_of(held)) if texts.get((it.book, it.key)) == it.text]
    return write_bundle(join(set_of(kept), set_of(found)))


def whole_books(held: Set, books: Sequence[str], notes: list[bytes]) -> list[str]:
    """The books that have their heads. Of the others it is noted that they get no file."""
    whole = [it for it in books if book_begun(export(held, it)) == it]
    for book in books:
        if book not in whole:
            notes.append(b"no file is written for %s: the project does not have the book's head, which begins with \\id\n" % book.encode())
    return whole


def new_files(folder: dict, place: str, kept: Kept, files: Sequence[BookFile], held: Set, books: Sequence[str]) -> dict:
    """The new files of books, by their paths."""
    by_book = {it.book: it for it in files}
    named = {it.book: it.path[len(place) + 1 :] for it in files}
    common = form_of({**kept.names, **named})
    made = {}
    for book in books:
        text = export(held, book)
        file = by_book.get(book)
        if file is None:
            known = kept.names.get(book)
            path = f"{place}/{common(book) if known is None or is_of_another(common, book, known) else known}"
            if is_there(folder, path):
                raise of_path(path, 131)
            made[path] = (book, text)
        elif not is_like(text, file.data):
            made[file.path] = (book, text if is_mixed(file.data) else in_manner_of(file.data, text))
    return made


def is_of_another(common: Callable[[str], str], book: str, name: str) -> bool:
    """Whether a name is the one that the file of another book gets."""
    return any(is_code(it) and it != book and common(it) == name for it in (name[:3], name[2:5]))


# The numbers that stand before the codes of some books in the names of Paratext's files.
NUMBERS = {"GEN": "01", "MAT": "41", "MRK": "42", "LUK": "43", "JHN": "44", "REV": "67", "TOB": "68", "PS2": "85"}


def form_of(names: dict[str, str]) -> Callable[[str], str]:
    """How the file of a book is named that has none: as all others are, if these are named in one way."""
    forms = set()
    for book, name in names.items():
        if name.startswith(book):
            forms.add((False, name[3:]))
        elif NUMBERS.get(book) and name.startswith(NUMBERS[book] + book):
            forms.add((True, name[5:]))
        else:
            forms.add(None)
    has_number, end = (False, ".usfm") if len(forms) != 1 or None in forms else forms.pop()
    return lambda book: (NUMBERS[book] if has_number and book in NUMBERS else "") + book + end


def other_names(place: str, kept: Kept, files: Sequence[BookFile], made: dict) -> Optional[dict[str, str]]:
    """Which file is which book's, if that is not written down."""
    names = {**kept.names, **{it.book: it.path[len(place) + 1 :] for it in files}}
    names.update((book, path[len(place) + 1 :]) for path, (book, _) in made.items())
    return None if names == kept.names else names


def conflict_lines(held: Set) -> bytes:
    found = conflicts(held)
    told = b"conflicts %d\n" % len(found) if found or awaited(held) else b""
    return told + b"".join(b"conflict %s\n" % it.encode() for it in found[:MOST_NAMED])


def wrote(made: dict) -> bytes:
    return b"".join(b"wrote %s\n" % path.encode() for path in made)


# ---- what is done


def do(folder: dict, place: str, kept: Kept, plan: Plan) -> None:
    """Does a plan on the files of a folder."""
    own = f"{place}/.usfm_team"
    if kept.next:
        settle(folder, own, write_bundle(written_from(kept)))
        folder.pop(f"{own}/next")
    for book in kept.unplaced:
        folder.pop(f"{own}/{book}.new", None)
    first = plan.base if not plan.files else plan.now
    if len(kept.bases) != 1 or kept.next or [first] != list(kept.bases.values()):
        folder[f"{own}/base"] = first
    if plan.names is not None:
        folder[f"{own}/names"] = write_names(plan.names)
    for path, (_, text) in plan.files.items():
        folder[path] = text
    if plan.files:
        settle(folder, own, plan.base)
    if f"{own}/base" in folder:
        for path in kept.outdated:
            folder.pop(path, None)


def settle(folder: dict, own: str, base: bytes) -> None:
    """Puts a base in the place of the one that is there, after the older ones have moved on."""
    before = folder.get(f"{own}/base")
    if before == base:
        return
    if before is not None:
        move_on(folder, own, read_whole_bundle(before), read_whole_bundle(base))
    folder[f"{own}/base"] = base


def move_on(folder: dict, own: str, before: Set, base: Set) -> None:
    """The older bases move on, of each book of which a base has not what the one before it has."""

    def lacked(held: Set, more: Set) -> set[str]:
        return {it.book for it in more.values() if it.id not in held or not agree(held[it.id], it)}

    changed = lacked(base, before) | lacked(before, base)
    if not changed:
        return
    newer = before
    for path in (f"{own}/{name}" for name in OLDER):
        is_last = path not in folder
        older = {} if is_last else read_whole_bundle(folder[path])
        moved = {id: it for id, it in newer.items() if it.book in changed}
        stayed = {id: it for id, it in older.items() if it.book not in changed}
        folder[path] = write_bundle(join(moved, stayed))
        if is_last:
            return
        newer = older


def sync_plan(folder: dict, place: str, replica: Replica, kept: Kept, files: list[BookFile], bundles: list, wishes: Wishes) -> Plan:
    """Plans a sync."""
    base, stood, told = come_in(replica, kept, files, bundles, wishes)
    held, notes = replica.held, []
    whole = whole_books(held, books_of(held), notes)
    made = new_files(folder, place, kept, files, held, whole)
    told += wrote(made) + conflict_lines(held)
    plan = Plan(replica, base_as_read(base, held, stood), base_of(held, whole), made, other_names(place, kept, files, made), told, notes)
    return plan


def export_plan(folder: dict, place: str, replica: Replica, kept: Kept, files: list[BookFile], named: Sequence[str]) -> Plan:
    """Plans an export. A file that would lose something is refused: what was changed in it, or what it was written from."""
    held, notes = replica.held, []
    base = written_from(kept)
    if not set(named) <= set(books_of(held)):
        raise Fault(82)
    whole = whole_books(held, [it for it in books_of(held) if it in named or not named], notes)
    made = {}
    for book in whole:
        one = new_files(folder, place, kept, files, held, [book])
        for path in one:
            for file in files:
                if file.path == path:
                    of_book = [it for it in base.values() if it.book == book]
                    is_as_written = bool(of_book) and is_like(export(base, book), file.data)
                    if not is_as_written or any(it.id not in held for it in of_book):
                        raise of_path(path, 131)
        made.update(one)
    left = {id: it for id, it in base.items() if it.book not in whole}
    next_base = write_bundle(join(left, set_of(all_shown(held, whole))))
    return Plan(replica, write_bundle(base), next_base, made, other_names(place, kept, files, made), wrote(made), notes)
