"""Power cuts while a sync runs: what may stand on the disk then is made from its calls, as strace shows them.

What was synced is there. Of the names that were made, moved and removed in a folder since it was synced, any may be missing; and a file
that was not synced may be empty. A sync of what stands then makes what the whole one makes: the same project, so that no edit is made
twice, and the same files.
"""
import itertools
import re
import shutil
import subprocess
import tempfile
from concurrent.futures import ThreadPoolExecutor
from dataclasses import dataclass
from pathlib import Path
from typing import Iterator, Optional

from calls import SYNC, begun
from stage import SECONDS, Tally, run, wanted

CALLS = "open,openat,write,fsync,link,linkat,rename,renameat,renameat2,unlink,unlinkat,mkdir,mkdirat"
WORD = re.compile(r'"((?:\\x[0-9a-f]{2})*)"')
HANDLE = re.compile(r"(\d+)<((?:\\x[0-9a-f]{2})*)>")
REACHED = re.compile(r"/proc/self/fd/(\d+)/")


@dataclass(frozen=True)
class Step:
    """A change of names in a folder: a file that was made there, a link, a renaming, a removal, or a new folder."""

    kind: str
    path: str
    to: str = ""
    file: int = 0

    @property
    def folder(self) -> str:
        """The folder by whose syncing it is on the disk."""
        return str(Path(self.to or self.path).parent)


Tree = dict[str, int]


class Disk:
    """What a sync did, step by step: names, and the bytes of files."""

    def __init__(self, home: Path) -> None:
        self.home = home
        self.handles: dict[str, str] = {}
        self.bytes: list[bytes] = []
        self.synced: list[bool] = []
        self.tree: Tree = {}
        self.folders = {str(it) for it in home.rglob("*") if it.is_dir()} | {str(home)}
        for path in home.rglob("*"):
            if path.is_file():
                self.tree[str(path)] = self.file(path.read_bytes(), True)
        self.names = dict(self.tree)
        self.pending: list[Step] = []

    def file(self, data: bytes, synced: bool) -> int:
        self.bytes.append(data)
        self.synced.append(synced)
        return len(self.bytes) - 1

    def path(self, word: str) -> str:
        found = REACHED.match(word)
        if found:
            return f"{self.handles[found[1]]}/{word[found.end():]}".rstrip("/")
        return str(self.home / word)

    def play(self, line: str) -> bool:
        """Does a call, and says whether it changed anything."""
        kind, _, rest = line.partition("(")
        if not re.search(r"= \d", line):
            return False
        words = [self.path(text_of(it)) for it in WORD.findall(rest.split("O_")[0])] if kind != "write" else []
        handle = HANDLE.search(rest)
        if kind in ("open", "openat"):
            made = list(HANDLE.finditer(line))[-1]
            self.handles[made[1]] = text_of(made[2])
            if "O_CREAT" not in line or not words[0].startswith(str(self.home)):
                return False
            return self.do(Step("make", words[0], file=self.file(b"", False)))
        if kind == "write":
            at = self.names.get(text_of(handle[2]))
            if at is None:
                return False
            self.bytes[at] += data_of(WORD.findall(rest)[0])
            return True
        if kind == "fsync":
            path = text_of(handle[2])
            if path in self.names:
                self.synced[self.names[path]] = True
            else:
                done = [it for it in self.pending if it.folder == path]
                apply(self.tree, self.folders, done)
                self.pending = [it for it in self.pending if it.folder != path]
            return True
        kinds = {"link": "link", "rename": "move", "unlink": "remove", "mkdir": "folder"}
        return self.do(Step(kinds[re.sub("at2?$", "", kind)], words[0], words[1] if len(words) > 1 else ""))

    def do(self, step: Step) -> bool:
        apply(self.names, set(), [step], True)
        self.pending.append(step)
        return True

    def states(self) -> Iterator[dict[str, Optional[bytes]]]:
        """What may stand on the disk if the power is cut now: the bytes of each file, and nothing for each folder."""
        for chosen in itertools.product((False, True), repeat=len(self.pending)):
            tree, folders = dict(self.tree), set(self.folders)
            apply(tree, folders, [step for step, is_there in zip(self.pending, chosen) if is_there])
            found: dict[str, Optional[bytes]] = {it: None for it in folders}
            for path, at in tree.items():
                found[path] = self.bytes[at] if self.synced[at] else b""
            yield found


def apply(tree: Tree, folders: set[str], steps: list[Step], always: bool = False) -> None:
    for step in steps:
        if not always and step.folder not in folders:
            continue
        if step.kind == "make":
            tree[step.path] = step.file
        elif step.kind == "folder":
            folders.add(step.path)
        elif step.path in tree:
            if step.kind == "link":
                tree[step.to] = tree[step.path]
            elif step.kind == "move":
                tree[step.to] = tree.pop(step.path)
            else:
                del tree[step.path]


def data_of(word: str) -> bytes:
    return bytes.fromhex(word.replace("\\x", ""))


def text_of(word: str) -> str:
    return data_of(word).decode()


def check_cuts(tally: Tally, program: Path, work: Path) -> None:
    if shutil.which("strace") is None:
        print("sync: not run, since strace is not installed: power cuts")
        return
    check_scene(tally, program, work / "a day", begun(program, work / "a day" / "scene"), True)
    first = work / "the first day" / "scene"
    begun(program, first)
    shutil.rmtree(first / "texts/.usfm_team")
    wanted(run(program, first, ["init", "new", "cy"]))
    first.joinpath("new").replace(first / "p")
    check_scene(tally, program, work / "the first day", first, False)


def check_scene(tally: Tally, program: Path, place: Path, scene: Path, has_bundle: bool) -> None:
    words = SYNC if has_bundle else SYNC[:-1]
    home = place / "whole"
    shutil.copytree(scene, home)
    disk = Disk(home)
    told = place / "calls"
    command = ["strace", "-f", "-y", "-xx", "-s", "1000000", "-e", f"trace={CALLS}", "-o", told, program, *words]
    ran = subprocess.run(command, cwd=home, capture_output=True, timeout=SECONDS)
    tally.check(ran.returncode == 0, f"the whole sync: {ran}")
    end = books_and_project(home)
    states: dict[frozenset, dict[str, Optional[bytes]]] = {}
    for line in told.read_text().splitlines():
        if disk.play(line.split(None, 1)[1]):
            for state in disk.states():
                states[frozenset(state.items())] = state

    def tried(state: dict[str, Optional[bytes]]) -> tuple:
        with tempfile.TemporaryDirectory(dir=place) as name:
            again = Path(name) / "home"
            for path in sorted(state, key=len):
                data = state[path]
                to = again / Path(path).relative_to(home)
                to.mkdir(exist_ok=True) if data is None else to.write_bytes(data)
            answer = run(program, again, words)
            return answer, books_and_project(again), sorted(it.name for it in (again / "texts/.usfm_team").iterdir())

    with ThreadPoolExecutor(4) as lanes:
        for state, (answer, found, own) in zip(states.values(), lanes.map(tried, states.values())):
            names = sorted(str(Path(it).relative_to(home)) for it, data in state.items() if data is not None)
            tally.check(answer.status == 0 and found == end, f"after a power cut with {names}: {answer}, {differing(found, end)}")
            rest = set(own) - {"base", "base.1", "base.2", "base.3", "days", "names"}
            tally.check(not rest, f"after a power cut with {names} there is {rest}")
    tally.check(len(states) > 15, f"{len(states)} power cuts were tried")


def books_and_project(home: Path) -> dict[str, bytes]:
    return {str(it.relative_to(home)): it.read_bytes() for it in [home / "p", *home.glob("texts/*")] if it.is_file()}


def differing(found: dict[str, bytes], end: dict[str, bytes]) -> list[str]:
    return sorted(it for it in found.keys() | end.keys() if found.get(it) != end.get(it))
