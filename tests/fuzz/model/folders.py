"""A folder of books' files: what was changed in it comes into a project, and the project's books go into it."""
from dataclasses import dataclass
from typing import Callable, Optional, Sequence

from .bundles import read_whole_bundle, write_bundle
from .faults import Fault, text_of
from .likes import in_manner_of, is_like
from .operations import Set, conflict, export, has_book, join, keys_of, pick, picked_keys, set_of, shown
from .references import Key, Verse, book_rank, read_book, verse_after, write_ref
from .replicas import Replica
from .tokens import book_of, cut
from .verses import verse_lines

ENDINGS = (".usfm", ".sfm")
OLDER = ("base.1", "base.2", "base.3")
# What an older version kept of a book, or left half written.
OUTDATED = ("bundle", "bundle.new", "usfm.new", "bundle.made")
# So many texts may be gone without a question.
MOST_SAID = 20
MOST_GONE = 1


@dataclass
class Wishes:
    emptied: bool = False
    undone: bool = False
    stale: bool = False
    joined: bool = False
    is_try: bool = False


@dataclass
class BookFile:
    """A book's file."""

    path: str
    book: str
    data: bytes


@dataclass
class Kept:
    """What the program keeps in a folder: bundles by their paths, the books of new files that are not in their places, the names of
    files, and the paths of what is not needed any more."""

    bases: dict[str, bytes]
    next: dict[str, bytes]
    older: dict[str, bytes]
    unplaced: list[str]
    names: dict[str, str]
    outdated: list[str]


def within(path: str, call: Callable, *given: object):
    """What a call gives for a file, which is named where it is refused."""
    try:
        return call(*given)
    except Fault as fault:
        fault.file = path
        raise


def of_path(path: str, number: int, *details: object) -> Fault:
    fault = Fault(number, *details)
    fault.file = path
    return fault


# ---- what is read


def read_kept(folder: dict, place: str) -> Kept:
    """What the program keeps in a place."""
    own = f"{place}/.usfm_team"
    if own in folder:
        raise of_path(own, 131)
    found = sorted((it[len(own) + 1 :] for it in folder if it.startswith(own + "/")), key=str.encode)
    codes = [(name, *name.split(".", 1)) for name in found if "." in name and is_code(name.split(".", 1)[0])]
    at = {name: f"{own}/{name}" for name in found}
    old = [name for name, _, ending in codes if ending == "bundle"]
    bases = ["base"] if "base" in found else old
    half = [name for name in found if name.endswith(".made")]
    return Kept(
        {at[it]: folder[at[it]] for it in bases},
        {at[it]: folder[at[it]] for it in found if it == "next"},
        {at[it]: folder[at[it]] for it in OLDER if it in found},
        [code for _, code, ending in codes if ending == "new"],
        read_names(folder.get(f"{own}/names", b"")),
        [at[name] for name, _, ending in codes if ending in OUTDATED] + [at[it] for it in half],
    )


def is_code(word: str) -> bool:
    try:
        return read_book(word) == word
    except Fault:
        return False


def read_names(data: bytes) -> dict[str, str]:
    """The name of each book's file, as it was written down."""
    names: dict[str, str] = {}
    try:
        text = text_of(data).decode()
    except Fault:
        return names
    for line in text.split("\n"):
        code, _, name = line.partition(" ")
        if is_code(code) and may_be_book(name):
            names.setdefault(code, name)
    return names


def names_in(folder: dict, place: str) -> list[str]:
    """The paths of the files in a place that may be books', in the order of their bytes."""
    names = [it[len(place) + 1 :] for it in folder if it.startswith(place + "/")]
    return sorted((f"{place}/{it}" for it in names if may_be_book(it)), key=str.encode)


def refuse_no_folder(folder: dict, place: str) -> None:
    if not any(it.startswith(place + "/") for it in folder):
        raise of_path(place, 120)


def may_be_book(name: str) -> bool:
    return "/" not in name and not name.startswith(".") and name.lower().endswith(ENDINGS)


def book_begun(data: bytes) -> Optional[str]:
    """The book that a file begins with, if it begins with one."""
    try:
        return book_of(front(data))
    except Fault:
        return None


def why_no_book(data: bytes) -> bytes:
    """What is said of a file that begins with no book."""
    if not data:
        return b"it is empty"
    if data[:2] in (b"\xff\xfe", b"\xfe\xff"):
        return b"it is UTF-16: save it as UTF-8"
    return slip(data.removeprefix(b"\xef\xbb\xbf")) or b"it does not begin with \\id, one space and a book's code in capitals"


def slip(text: bytes) -> Optional[bytes]:
    """What is wrong with how a book's file begins: a blank too many, small letters, or text before it."""
    if not text.startswith(b"\\id "):
        lines = text.split(b"\n")
        later = [number for number, line in enumerate(lines, 1) if number > 1 and line.startswith(b"\\id ")]
        return b"\\id stands in line %d: take out what is before it" % later[0] if later else None
    word = text[4:]
    if word[:1] in (b" ", b"\t"):
        return b"one space belongs between \\id and the code"
    code = word[:3].upper()
    ends = len(word) == 3 or word[3:4] in (b" ", b"\r", b"\n")
    if ends and code != word[:3] and is_code(code.decode("latin-1")):
        return b"the code after \\id is in small letters: write \\id " + code
    return None


def front(data: bytes) -> bytes:
    """The longest front that is UTF-8."""
    try:
        return text_of(data)
    except Fault as fault:
        return data[: fault.details[0]]


def read_files(folder: dict, place: str, read: Callable[[dict, str], bytes], notes: list[bytes]) -> list[BookFile]:
    """The books' files of a place. What is skipped is noted."""
    files = []
    for path in names_in(folder, place):
        data = within(path, read, folder, path)
        book = book_begun(data)
        if book is None:
            notes.append(b"skipped %s: %s\n" % (path.encode(), why_no_book(data)))
        else:
            files.append(BookFile(path, book, data))
    return files


def refuse_unclear(folder: dict, place: str, kept: Kept, files: Sequence[BookFile]) -> None:
    """Refuses a second file of a book, the one that is not known as the book's, else the later one; and what stands under the name of a
    book's file and is not that book's any more."""
    seen: dict[str, str] = {}
    for file in files:
        if file.book in seen:
            known = f"{place}/{kept.names.get(file.book)}"
            raise of_path(seen[file.book] if file.path == known else file.path, 131)
        seen[file.book] = file.path
    for book in sorted(kept.names, key=book_rank):
        path = f"{place}/{kept.names[book]}"
        if is_there(folder, path) and seen.get(book) != path:
            raise of_path(path, 131)


def is_there(folder: dict, path: str) -> bool:
    return any(it == path or it.startswith(path + "/") for it in folder)


# ---- what comes in


def shares(held: dict, others: dict) -> bool:
    """Whether an operation of others is held, or replaces one that is."""
    return any(id in held or any(it in held for it in operation.replaced) for id, operation in others.items())


def receive(replica: Replica, path: str, bundle: bytes, wishes: Wishes) -> int:
    """Receives a bundle, and says how much was new; but not one that has nothing in common with the project."""
    more = within(path, read_whole_bundle, bundle)
    united = within(path, join, replica.held, more)
    is_strange = bool(replica.held) and bool(more) and not shares(replica.held, more) and not shares(more, replica.held)
    if is_strange and not wishes.joined:
        raise of_path(path, 134, max(0, len(conflicts(united)) - len(conflicts(replica.held))))
    count = len(united) - len(replica.held)
    replica.held = united
    return count


def written_from(kept: Kept) -> Set:
    """What the files were written from: the bases; of a book without a new file in the program's folder, the next base."""
    held: Set = {}
    for path, bundle in kept.bases.items():
        held = within(path, join, held, within(path, read_whole_bundle, bundle))
    for path, bundle in kept.next.items():
        more = within(path, read_whole_bundle, bundle)
        left = {id: it for id, it in held.items() if it.book in kept.unplaced}
        held = within(path, join, left, {id: it for id, it in more.items() if it.book not in kept.unplaced})
    return held


def come_in(before: Replica, kept: Kept, files: Sequence[BookFile], bundles: dict, wishes: Wishes) -> tuple[Set, list, bytes]:
    """Takes in all: what the files were written from, bundles, and files. Answers the first of these, the texts that files have in
    the place of its, and what is said."""
    known, held = dict(before.held), len(before.held)
    for path, bundle in kept.bases.items():
        receive(before, path, bundle, wishes)
    base = written_from(kept)
    for path, bundle in kept.next.items():
        before.held = within(path, join, before.held, read_whole_bundle(bundle))
    # Where a next base stands, the base is one of those before it.
    earlier = {**kept.bases, **kept.older} if kept.next else kept.older
    older = [within(path, read_whole_bundle, bundle) for path, bundle in earlier.items()]
    if wishes.stale:
        for file in files:
            base = rebased(before, base, older, file)
    told = b"new %d base\n" % (len(before.held) - held) if len(before.held) > held else b""
    for name, bundle in bundles:
        told += b"new %d\n" % receive(before, name, bundle, wishes)
    brought = dict(before.held)
    stood: list[tuple[str, Key, bytes]] = []
    for file in sorted(files, key=lambda it: not has_book(base, it.book)):
        added = within(file.path, take_in, before, base, older, file, wishes, stood)
        told += b"added %d %s\n" % (added, file.book.encode()) if added else b""
    return base, stood, told + verse_lines(known, brought, before.held, before.name, base, older)


def take_in(replica: Replica, base: Set, older: list[Set], file: BookFile, wishes: Wishes, stood: list) -> int:
    """Takes in what was changed in a file, and says how many edits that is."""
    data = text_of(file.data)
    if has_book(base, file.book):
        was = base
    elif not has_book(replica.held, file.book):
        note_stood(replica, {}, file.book, {it.key: it.text for it in cut(data)}, stood)
        return count_of(replica.import_book(data))
    elif is_like(export(replica.held, file.book), data):
        was = replica.held
    else:
        raise Fault(131)
    data = in_manner_of(export(was, file.book), data)
    pieces = restored_pieces(was, file.book, data)
    note_stood(replica, base, file.book, pieces, stood)
    if was is not base:
        return 0
    if not wishes.undone and not wishes.stale:
        refuse_undone(base, older, replica.name, file.book, pieces, wishes.is_try)
    if not wishes.emptied:
        refuse_emptied(base, file.book, pieces, wishes.is_try)
    made = b"".join(pieces[it.key] for it in cut(data))
    return count_of(replica.import_since(made, write_bundle(set_of(it for it in base.values()))))


def count_of(told: bytes) -> int:
    return int(told.split()[1])


def restored_pieces(held: Set, book: str, data: bytes) -> dict[Key, bytes]:
    """The pieces of a file in the manner of a set's export, each as it is picked there, if it is like that."""
    return {it.key: restored(held, book, it.key, it.text) for it in cut(data)}


def restored(held: Set, book: str, key: Key, text: bytes) -> bytes:
    """A piece of a file as the one text that is shown and picked has it, if it is like that one."""
    showing = shown(held, book, key)
    stands = showing[-1].text if showing else b""
    return stands if stands and pick(held, book, key) == stands and is_like(stands, text) else text


def note_stood(replica: Replica, base: Set, book: str, pieces: dict[Key, bytes], stood: list) -> None:
    """Notes the segments in which a file has another text than what it was written from."""
    for key in sorted(set(picked_keys(replica.held, book)) | set(pieces)):
        text = pieces.get(key, b"")
        if pick(base, book, key) != text:
            stood.append((book, key, text))


def rebased(project: Replica, base: Set, older: list[Set], file: BookFile) -> Set:
    """The base, of which what an older base has stands in the segments in which a file is unlike it, if the file may be of an older one."""
    if not has_book(base, file.book):
        return base
    try:
        data = in_manner_of(export(base, file.book), text_of(file.data))
    except Fault:
        return base
    pieces = restored_pieces(base, file.book, data)

    def is_unlike(held: Set, key: Key) -> bool:
        return not is_like(pick(held, file.book, key), pieces.get(key, b""))

    def unlikeness(held: Set) -> int:
        return sum(is_unlike(held, key) for key in set(picked_keys(held, file.book)) | set(pieces))

    chosen = [held for held in older if has_book(held, file.book)]
    chosen = [held for held in chosen if any(is_unlike(base, key) for key, _ in came_in(held, base, project.name, file.book))]
    if not chosen:
        return base
    least = min(chosen[::-1], key=unlikeness)
    project.held = join(project.held, least)

    def is_left(it) -> bool:
        return it.book == file.book and is_unlike(base, it.key)

    return join({id: it for id, it in base.items() if not is_left(it)}, {id: it for id, it in least.items() if is_left(it)})


def is_covered(pieces: dict[Key, bytes], key: Key) -> bool:
    """Whether a bridge of a file covers a verse: it begins before it, and goes to it or beyond."""
    for begun, text in pieces.items():
        if begun.chapter == key.chapter and begun < key and text.startswith(b"\\v"):
            verse = verse_after(text[2:])
            if verse is not None and verse.last is not None:
                if key.place <= Verse(verse.last.number, verse.last.letter or "z"):
                    return True
    return False


def refuse_emptied(base: Set, book: str, pieces: dict[Key, bytes], is_try: bool) -> None:
    gone = [it for it in keys_of(base, book) if pick(base, book, it) and not pieces.get(it) and not is_covered(pieces, it)]
    if len(gone) > MOST_GONE:
        ask(132, [f"empties {write_ref(book, it)}" for it in gone], is_try)


def refuse_undone(base: Set, older: list[Set], own: str, book: str, pieces: dict[Key, bytes], is_try: bool) -> None:
    for held in older:
        if not has_book(held, book):
            continue
        keys = [key for key, text in came_in(held, base, own, book) if is_like(pieces.get(key, b""), text)]
        if keys:
            ask(133, [f"undoes {write_ref(book, it)} {shown(base, book, it)[-1].id.name}" for it in keys], is_try)


def ask(number: int, lines: list[str], is_said: bool) -> None:
    """Refuses a file for so many segments; the first twenty are said where it is only tried."""
    fault = Fault(number, len(lines))
    fault.lines = lines[:MOST_SAID] if is_said else []
    raise fault


def came_in(older: Set, base: Set, own: str, book: str) -> list[tuple[Key, bytes]]:
    """The segments for which others' texts came in between an older base and a base, each with the text of the older one."""
    came = []
    for key in keys_of(base, book):
        # What is picked, where that is not a chapter's line that nobody wrote.
        showing = shown(base, book, key)
        if showing and pick(base, book, key) == showing[-1].text and showing[-1].id.name != own:
            text = pick(older, book, key)
            if not is_like(text, showing[-1].text):
                came.append((key, text))
    return came


def books_of(held: Set) -> list[str]:
    return sorted({it.book for it in held.values()}, key=book_rank)


def conflicts(held: Set) -> list[str]:
    """The segments that are in conflict."""
    return [write_ref(book, key) for book in books_of(held) for key in keys_of(held, book) if conflict(held, book, key)]
