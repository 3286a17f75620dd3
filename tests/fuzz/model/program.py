"""The program: the words of a line, the files of a folder, and what the program makes of them."""
from dataclasses import dataclass
from typing import Callable, Optional, Sequence, Union

from . import answers, folders, looks, pasts, plans, readings
from .bundles import read_whole_bundle, seal, unsealed, unsealed_stream, write_bundle, write_project
from .faults import Fault, text_of
from .operations import Set, join
from .references import read_book, read_id, read_name, read_ref
from .replicas import Replica, combine_stream, fold, load, save
from .standing import progress, status
from .tokens import book_of

LONGEST = 268_435_456
# The day of the plays, as their folders have it.
TODAY = "today"


@dataclass(frozen=True)
class Zeros:
    """The content of a file that has this many zero bytes, and is too long to be kept here."""

    length: int


Content = Union[bytes, Zeros]

# The files of a folder by their names.
Folder = dict[str, Content]


@dataclass(frozen=True)
class Answer:
    """What a run gives. The text on standard error is none where no rule says it, as with usage."""

    status: int
    output: bytes
    error: Optional[bytes]


USAGE = Answer(2, b"", None)

# How the words of each subcommand are read, but for those that look at books by a sheet (looks.py). A file's name is taken as it is.
FILE = str
SHAPES: dict[str, tuple[Callable, ...]] = {
    "init": (FILE, read_name),
    "import": (FILE, FILE),
    "edit": (FILE, read_ref),
    "edit-over": (FILE, read_ref),
    "shown": (FILE, read_ref),
    "receive": (FILE, FILE),
    "sync": (FILE, FILE),
    "send": (FILE,),
    "summary": (FILE,),
    "delta": (FILE, FILE),
    "export": (FILE, read_book),
    "report": (FILE,),
    "status": (FILE,),
    "progress": (FILE,),
    "thin": (FILE,),
    "fold": (read_book,),
    "combine": (),
}
# The subcommands that take more words of the last kind, or ids.
OPEN_ENDED = ("import", "receive", "sync", "edit-over", "status", "combine")
# What is said to mean something, or to be only tried.
WISHES = {"--emptied": "emptied", "--undone": "undone", "--stale": "stale", "--join": "joined", "--try": "is_try"}
# The option that a subcommand has, and the least number of words beside it.
OPTIONS = {"import": ("--since", 2), "export": ("--into", 1), "edit-over": ("--text-of", 2)}


def run(folder: Folder, words: Sequence[str], given: Content) -> Answer:
    """What the program answers to these words in a folder, which it may change, with this standard input."""
    words = [it for it in words if it != "--"]
    if words and words[0] in looks.COMMANDS:
        return look(folder, words)
    if words and words[0] in pasts.COMMANDS:
        return tell_past(folder, words)
    if words and words[0] in ("send", "delta", "combine") and "--sealed" in words:
        answer = run(folder, [it for it in words if it != "--sealed"], given)
        return answer if answer.status else Answer(0, seal(answer.output), answer.error)
    if words and words[0] in readings.COMMANDS:
        return read_plainly(folder, words)
    if words[:1] == ["settle"] and "--answers" in words:
        return settle(folder, words)
    values, option = parted(words)
    if any(it in ("--since", "--into", "--text-of") for it in values) or not has_shape(values, option):
        return USAGE
    # What is said on standard error beside a refusal.
    notes: list[bytes] = []
    try:
        return Answer(0, act(folder, values[0], values[1:], option, given, notes), b"".join(notes))
    except Fault as fault:
        return Answer(1, b"", b"".join(notes) + fault.line())


def look(folder: Folder, words: Sequence[str]) -> Answer:
    """What is reported of a project's books by a sheet."""
    try:
        asked = looks.look_of(words)
        if asked is None:
            return USAGE
        files = [(it, book_file(folder, it)) for it in asked.files]
        before = b"" if files else read_file(folder, asked.project)
        sheet = None if asked.sheet is None else read_file(folder, asked.sheet)
        if files:
            return Answer(0, looks.reported_of_files(asked, files, sheet), b"")
        return Answer(0, looks.reported(asked, load(before).held, sheet), b"")
    except Fault as fault:
        return Answer(1, b"", fault.line())


def read_plainly(folder: Folder, words: Sequence[str]) -> Answer:
    """What is read of a project as plain text."""
    try:
        asked = readings.ask_of(words)
        if asked is None:
            return USAGE
        before = read_file(folder, asked.project)
        sheet = None if asked.sheet is None else read_file(folder, asked.sheet)
        return Answer(0, readings.written(asked, load(before).held, sheet), b"")
    except Fault as fault:
        return Answer(1, b"", fault.line())


def tell_past(folder: Folder, words: Sequence[str]) -> Answer:
    """What was in a project, what changed in it, or what had a text back."""
    try:
        asked = pasts.past_of(words)
        if asked is None:
            return USAGE
        before = read_file(folder, asked.project)
        data = None if asked.since is None else read_bundle(folder, asked.since)
        replica = load(before)
        output = pasts.told(asked, replica, data)
        if "--try" not in asked.flags:
            folder[asked.project] = save(replica)
        return Answer(0, output, b"")
    except Fault as fault:
        return Answer(1, b"", fault.line())


def settle(folder: Folder, words: Sequence[str]) -> Answer:
    """Settles the conflicts of a project by the answers of files, all or none."""
    place = words.index("--answers")
    project, names = words[1:place], words[place + 1 :]
    if len(project) != 1 or not names:
        return USAGE
    try:
        before = read_file(folder, project[0])
        contents = [of_file(names, name, read_file, folder, name) for name in names]
        given = [it for name, data in zip(names, contents) for it in of_file(names, name, answers.read_answers, data)]
        replica = load(before)
        told = answers.settle(replica, given)
        folder[project[0]] = save(replica)
        return Answer(0, told, b"")
    except Fault as fault:
        return Answer(1, b"", fault.line())


def parted(words: Sequence[str]) -> tuple[list[str], Optional[str]]:
    """The words of a line without its option, and the bundle, the folder or the id that this names."""
    name, _ = OPTIONS.get(words[0] if words else "", ("", 0))
    if name in words[1:-1]:
        place = words.index(name)
        return [*words[:place], *words[place + 2 :]], words[place + 1]
    return list(words), None


def has_shape(words: Sequence[str], option: Optional[str]) -> bool:
    """Whether these are a subcommand and as many words as it takes."""
    if not words or words[0] not in SHAPES:
        return False
    count = len(words) - 1
    least = OPTIONS[words[0]][1] if option is not None else len(SHAPES[words[0]])
    if words[0] == "progress":
        return count in (1, 2)
    return count >= least if option is not None or words[0] in OPEN_ENDED else count == least


def act(
    folder: Folder, command: str, words: Sequence[str], option: Optional[str], given: Content, notes: list[bytes]
) -> bytes:
    """Does a command whose line has its shape, and answers what it writes."""
    if command == "combine":
        return combine(folder, words, given)
    if command in ("import", "receive"):
        return take_in(folder, command, words[0], words[1:], option)
    if command == "sync":
        return sync(folder, *words[:2], words[2:], notes)
    if command == "status":
        return stand(folder, words[0], words[1:])
    if command == "progress":
        books = [read_book(it) for it in words[1:]]
        held = load(read_file(folder, words[0])).held
        return progress(held, books or folders.books_of(held))
    if command == "export" and option is not None:
        return export_into(folder, words[0], option, [read_book(it) for it in words[1:]], notes)
    shape = SHAPES[command]
    values = [read(word) for read, word in zip(shape, words)]
    ids = [read_id(word) for word in words[len(shape) :]]
    of = None if option is None else read_id(option)
    if command == "fold":
        return fold(unsealed_stream(read_content(given)), values[0])
    if command == "init":
        return begin(folder, *values)
    project = values[0]
    before = read_file(folder, project)
    if command == "delta":
        values[1] = read_file(folder, values[1])
    elif command in ("edit", "edit-over") and of is None:
        given = read_content(given)
    replica = load(before)
    if of is not None:
        output = replica.edit_with(*values[1], of, ids)
    else:
        output = execute(replica, command, values[1:], given, ids)
    folder[project] = save(replica)
    return output


def combine(folder: Folder, names: Sequence[str], given: Content) -> bytes:
    """The one bundle of several; where none is named, of those of a stream."""
    if not names:
        return combine_stream(unsealed_stream(read_content(given)))
    contents = [of_file(names, name, read_bundle, folder, name) for name in names]
    held: Set = {}
    for name, content in zip(names, contents):
        held = of_file(names, name, lambda: join(held, read_whole_bundle(content)))
    return write_bundle(held)


def take_in(folder: Folder, command: str, project: str, names: Sequence[str], base: Optional[str]) -> bytes:
    """Takes in files one after another, and answers what each of them writes. Where one is refused, none is taken in."""
    before = read_file(folder, project)
    read = read_bundle if command == "receive" else read_file
    contents = [of_file(names, name, read, folder, name) for name in names]
    bundle = None if base is None else read_bundle(folder, base)
    replica = load(before)
    if bundle is None:
        call = replica.import_book if command == "import" else replica.receive
        taken = [of_file(names, name, call, content) for name, content in zip(names, contents)]
    else:
        taken = [of_file_since(names, name, replica, content, bundle) for name, content in zip(names, contents)]
    folder[project] = save(replica)
    return b"".join(taken)


def stand(folder: Folder, project: str, names: Sequence[str]) -> bytes:
    """Says how a project stands beside the files of other copies."""
    before = read_file(folder, project)
    files = [(name, folders.within(name, read_bundle, folder, name)) for name in names]
    replica = load(before)
    return status(replica.name, replica.held, files)


def sync(folder: Folder, project: str, place: str, words: Sequence[str], notes: list[bytes]) -> bytes:
    """Takes in bundles, and what was changed in a folder of files, and writes the books there."""
    names = [it for it in words if it not in WISHES]
    wishes = folders.Wishes(**{WISHES[it]: True for it in words if it in WISHES})
    before = read_file(folder, project)
    folders.refuse_no_folder(folder, place)
    bundles = [(it, folders.within(it, read_bundle, folder, it)) for it in names]
    kept = folders.read_kept(folder, place)
    files = folders.read_files(folder, place, read_file, notes)
    folders.refuse_unclear(folder, place, kept, files)
    replica = load(before)
    plan = plans.sync_plan(folder, place, replica, kept, files, bundles, wishes)
    if not wishes.is_try:
        plans.do(folder, place, kept, plan)
        folder[project] = save(replica)
        if folder[project] != before:
            # What the project was before is kept once on a day.
            folder.setdefault(f"{place}/.usfm_team/days/{TODAY}", load(before).summary())
    notes += plan.notes
    return plan.told


def export_into(folder: Folder, project: str, place: str, named: Sequence[str], notes: list[bytes]) -> bytes:
    """Writes books into the files of a folder, all where none is named."""
    before = read_file(folder, project)
    folders.refuse_no_folder(folder, place)
    kept = folders.read_kept(folder, place)
    files = folders.read_files(folder, place, read_file, notes)
    replica = load(before)
    folders.refuse_unclear(folder, place, kept, files)
    plan = plans.export_plan(folder, place, replica, kept, files, named)
    plans.do(folder, place, kept, plan)
    notes += plan.notes
    return plan.told


def of_file(names: Sequence[str], name: str, call: Callable[..., bytes], *given: object) -> bytes:
    """What a call gives for a file. A refusal says which one it is of, where there are several."""
    try:
        return call(*given)
    except Fault as fault:
        fault.file = name if len(names) > 1 else None
        raise


def of_file_since(names: Sequence[str], name: str, replica: Replica, content: bytes, bundle: bytes) -> bytes:
    """What an import of a file since a bundle gives. What the bundle is refused for is of none of the files."""
    try:
        return of_file(names, name, replica.import_since, content, bundle)
    except Fault as fault:
        if fault.number == 51 or 60 <= fault.number <= 70:
            fault.file = None
        raise


def execute(replica: Replica, command: str, values: Sequence, given: bytes, ids: Sequence) -> bytes:
    """Does a command on a replica, with the values of its words and the bytes of its files."""
    if command == "edit":
        book, key = values[0]
        return replica.edit(book, key, given)
    if command == "edit-over":
        book, key = values[0]
        return replica.edit_over(book, key, given, ids)
    if command == "shown":
        book, key = values[0]
        return replica.shown(book, key)
    calls = {
        "send": replica.send,
        "summary": replica.summary,
        "delta": replica.delta,
        "export": replica.export,
        "report": replica.report,
        "thin": replica.thin,
    }
    return calls[command](*values)


def begin(folder: Folder, project: str, name: str) -> bytes:
    """Begins a project where nothing is under its name."""
    if project in folder:
        raise Fault(130)
    folder[project] = write_project(name, {})
    return b""


def book_file(folder: Folder, name: str) -> bytes:
    """The text of a book's file. A refusal names it."""
    try:
        text = text_of(read_file(folder, name))
        book_of(text)
        return text
    except Fault as fault:
        fault.file = name
        raise


def read_file(folder: Folder, name: str) -> bytes:
    """The bytes of a file."""
    if name not in folder:
        raise Fault(120)
    return read_content(folder[name])


def read_bundle(folder: Folder, name: str) -> bytes:
    """The bytes of a bundle without their seal, where they have one."""
    return unsealed(read_file(folder, name))


def read_content(content: Content) -> bytes:
    """The bytes of a file or of standard input, where these are not too many."""
    if isinstance(content, Zeros):
        if content.length > LONGEST:
            raise Fault(121)
        return bytes(content.length)
    return content
