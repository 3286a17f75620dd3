r"""Rows: commands that are played in a new folder, with what each of them has to write.

A file of rows is a page. A line that begins with '# ' begins a play, which has a folder of its own.
Lines indented by four spaces are its rows; all others say what the rows are for.

    # A bundle that clashes

        + first bens
        $ usfm_team init p ana
        $ usfm_team receive p first
        new 2
        + other: bundle 2:ana MAT 1:1 "\v 1 Xx\n"
        $ usfm_team receive p bens other
        ! fault 51 2 ana
        ! in other
        = p: project ana first
        = ./: bens first other p

    $ COMMAND
        A line for bash, with the program in the path, and the words of tests/shared/playing.sh.
        Under it are the lines that it has to write to standard output ('|' for an empty one, and
        '| LINE' for one that looks like a row), then those of standard error ('! LINE', or '! ..'
        for any), and its status ('[2]') if it is not the usual one: 1 after '! fault ..', else 0.
    + FILE: CONTENT
        Makes a file; contents.py says how contents are written. '+ NAME ..' makes bundles with names.
    = FILE: CONTENT
        The file has to have this content. `output` is what the last command wrote to standard
        output. '= FOLDER/: NAME ..': the folder has to have these names, and no others.
    each NAME: WORD ..
        As the first row: the play is played for each word, which replaces $NAME. With two names, it
        is played for each two words, and so on.
    needs COMMAND
        If this command fails, what follows is skipped, and a line says so.

A row continues in the lines under it. Plays are played in parallel, and the rows of one in order.
"""
import argparse
import difflib
import os
import re
import shlex
import shutil
import subprocess
import sys
import tempfile
from concurrent.futures import ThreadPoolExecutor
from dataclasses import dataclass, field
from pathlib import Path
from typing import Optional

SHARED = Path(__file__).resolve().parent
sys.path.insert(1, str(SHARED.parent / "fuzz"))

from contents import Named, told
from reporting import Tally
from repository import program_of_repository

INDENT = "    "
ROW = re.compile(r"[$+=] |(each|needs) ")
# Far more than any command takes: one that waits for ever is shown as one that fails.
SECONDS = 60


@dataclass(frozen=True)
class Row:
    """A row, where it stands, and the lines under it."""

    line: int
    text: str
    under: list[str]

    @property
    def whole(self) -> str:
        return " ".join([self.text, *self.under])

    def with_values(self, values: dict[str, str]) -> "Row":
        """The row with values in the place of their names."""

        def put(text: str) -> str:
            return re.sub(r"\$([A-Z]+)\b", lambda found: values.get(found[1], found[0]), text)

        return Row(self.line, put(self.text), [put(it) for it in self.under])


@dataclass(frozen=True)
class Play:
    """Rows that are played one after another in a folder."""

    path: Path
    line: int
    title: str
    rows: list[Row]

    def each(self) -> list["Play"]:
        """The play for each of the values that its first row has."""
        if not self.rows or not self.rows[0].text.startswith("each "):
            return [self]
        names, words = self.rows[0].whole[5:].split(":", 1)
        names, words = names.split(), shlex.split(words)
        if len(words) % len(names):
            place = f"{self.path}:{self.rows[0].line}"
            raise SystemExit(f"{place}: {len(words)} words, for {len(names)} names each time")
        starts = range(0, len(words), len(names))
        return [self.with_values(dict(zip(names, words[start:]))) for start in starts]

    def with_values(self, values: dict[str, str]) -> "Play":
        title = ", ".join([self.title, *(f"{name} {value!r}" for name, value in values.items())])
        rows = [it.with_values(values) for it in self.rows[1:]]
        return Play(self.path, self.line, title, rows)


def read(path: Path) -> list[Play]:
    """The plays of a file."""
    plays: list[Play] = []
    for number, line in enumerate(path.read_text().splitlines(), 1):
        text = line.removeprefix(INDENT)
        if line.startswith("# "):
            plays.append(Play(path, number, line[2:], []))
        elif line.startswith(INDENT) and text.strip():
            if ROW.match(text):
                plays[-1].rows.append(Row(number, text, []))
            else:
                plays[-1].rows[-1].under.append(text)
        elif re.match(r"\s*[$+=!] ", line):
            raise SystemExit(f"{path}:{number}: a row that is not indented by four")
    return [one for play in plays for one in play.each()]


@dataclass
class Answer:
    """What a command answers, or has to answer: standard error is None where it may be any."""

    status: int
    output: bytes
    error: Optional[bytes]

    def lines(self) -> list[str]:
        """The answer in the lines of rows."""
        error = [".."] if self.error is None else lines_of(self.error)
        output = [f"| {it}".rstrip() if not it or ROW.match(it) else it for it in lines_of(self.output)]
        return [*output, *(f"! {it}" for it in error), f"[{self.status}]"]


def lines_of(data: bytes) -> list[str]:
    *lines, last = data.decode(errors="backslashreplace").split("\n")
    return [*lines, f"{last} (without an end of the line)"] if last else lines


def wanted_of(row: Row) -> Answer:
    """What the command of a row has to answer."""
    error = [it for it in row.under if it.startswith("! ")]
    status = [it for it in row.under if re.fullmatch(r"\[\d+\]", it)]
    output = [re.sub(r"^\| ?", "", it) for it in row.under if it not in error + status]
    is_refused = any(it.startswith("! fault ") for it in error)
    return Answer(
        int(status[0][1:-1]) if status else int(is_refused),
        "".join(it + "\n" for it in output).encode(),
        None if error == ["! .."] else "".join(it[2:] + "\n" for it in error).encode(),
    )


def beside(wanted: list[str], came: list[str]) -> str:
    """What was wanted beside what came, with a mark where they differ."""
    rows = [("", "wanted", "came")]
    parts = difflib.SequenceMatcher(None, wanted, came, False).get_opcodes()
    for kind, left, left_end, right, right_end in parts:
        mark = "" if kind == "equal" else ">"
        count = max(left_end - left, right_end - right)
        lefts = wanted[left:left_end] + [""] * count
        rights = came[right:right_end] + [""] * count
        rows += [(mark, *pair) for pair in list(zip(lefts, rights))[:count]]
    width = min(60, max(len(left) for _, left, _ in rows))
    return "\n".join(f"    {mark:1} {left:{width}}  {right}".rstrip() for mark, left, right in rows)


@dataclass
class Stage:
    """A folder in which a play is played, and what comes of it."""

    play: Play
    folder: Path
    environment: dict[str, str]
    named: Named
    output: bytes = b""
    passed: int = 0
    failures: list[str] = field(default_factory=list)
    skipped: list[str] = field(default_factory=list)

    def all(self) -> None:
        """Plays the rows, up to one that cannot be played."""
        self.folder.mkdir()
        rows = self.play.rows
        for row, later in zip(rows, [*rows[1:], None]):
            try:
                if row.text.startswith("needs ") and self.run(row.whole[6:]).status != 0:
                    self.skipped.append(f"{self.place(row)}: not played, for want of what it needs")
                    return
                self.do(row, later is not None and later.text.startswith("= output:"))
            except Exception as wrong:
                said = f"{type(wrong).__name__}: {wrong}"
                self.failures.append(f"{self.place(row)}\n    {row.text}\n    {said}")
                return

    def do(self, row: Row, is_output_said: bool) -> None:
        """Plays a row. The next one may say what this one's command writes."""
        said, _, content = row.whole[2:].partition(":")
        if row.text.startswith("$ "):
            self.command(row, is_output_said)
        elif row.text.startswith("+ "):
            for name in [said] if content else said.split():
                data = self.named.content(content or f"bundle {name}")
                (self.folder / name).write_bytes(data)
        elif row.text.startswith("= ") and said.endswith("/"):
            wanted, came = sorted(content.split()), sorted(os.listdir(self.folder / said))
            self.check(row, wanted == came, wanted, came)
        elif row.text.startswith("= "):
            data = self.output if said == "output" else (self.folder / said).read_bytes()
            wanted_data = self.named.content(content)
            self.check(row, wanted_data == data, told(wanted_data), told(data))
        elif row.text.startswith("each "):
            raise ValueError("it is not the first row")

    def command(self, row: Row, is_output_said: bool) -> None:
        wanted, came = wanted_of(row), self.run(row.text[2:])
        self.output = came.output
        if is_output_said and not wanted.output:
            wanted.output = came.output
        if wanted.error is None and came.error:
            wanted.error = came.error
        self.check(row, wanted == came, wanted.lines(), came.lines())

    def run(self, command: str) -> Answer:
        """What bash answers to a line."""
        ran = subprocess.run(
            ["bash", "-o", "pipefail", "-c", command],
            cwd=self.folder,
            env=self.environment,
            stdin=subprocess.DEVNULL,
            capture_output=True,
            timeout=SECONDS,
        )
        return Answer(ran.returncode, ran.stdout, ran.stderr)

    def check(self, row: Row, is_right: bool, wanted: list[str], came: list[str]) -> None:
        if is_right:
            self.passed += 1
        else:
            self.failures.append(f"{self.place(row)}\n    {row.text}\n{beside(wanted, came)}")

    def place(self, row: Row) -> str:
        return f"{os.path.relpath(self.play.path)}:{row.line}, {self.play.title}"


def chosen(folder: Path, words: list[str]) -> list[Play]:
    """The plays of the files that are named, or of a line of one; without a word all of the folder."""
    plays = []
    for word in words or sorted(map(str, folder.rglob("*.rows"))):
        name, _, line = word.partition(":")
        is_path = Path(name).is_file()
        found = read(Path(name) if is_path else folder / f"{name.removesuffix('.rows')}.rows")
        at = max((it.line for it in found if it.line <= int(line)), default=0) if line else 0
        plays += [it for it in found if not line or it.line == at]
    return plays


def played(
    plays: list[Play], folder: Path, program: Path, kind: type[Stage] = Stage
) -> list[Stage]:
    """What comes of plays, side by side, with the names of the folder that they are from."""
    named = Named(folder / "named")
    os.umask(0o022)
    with tempfile.TemporaryDirectory() as place:
        work = Path(place)
        work.chmod(0o755)
        work.joinpath("bin").mkdir()
        shutil.copy(program, work / "bin/usfm_team")
        paths = f"{work}/bin:{os.environ['PATH']}"
        words = {"PATH": paths, "BASH_ENV": str(SHARED / "playing.sh"), "LC_ALL": "C"}
        environment = {**os.environ, **words}
        places = enumerate(plays)
        stages = [kind(it, work / str(number), environment, named) for number, it in places]
        with ThreadPoolExecutor(os.cpu_count()) as pool:
            list(pool.map(Stage.all, stages))
        subprocess.run(["chmod", "-R", "u+rwX", work], check=False)
    return stages


def play_all(name: str, folder: Path) -> int:
    """Plays the rows of a folder as the command line says, and answers the exit status."""
    usage = f"tests/{folder.name}/run [--program PATH] [FILE[:LINE] ..]"
    parser = argparse.ArgumentParser(usage=usage)
    parser.add_argument("--program", type=Path, help="the program, else this repository's")
    parser.add_argument("files", nargs="*", help="files of rows, or the play of a line, else all")
    options = parser.parse_args()
    plays = chosen(folder, options.files)
    tally = Tally()
    for stage in played(plays, folder, options.program or program_of_repository()):
        tally.add(stage.passed, stage.failures)
        for said in stage.skipped:
            print(f"{name}: {said}")
    return tally.end(name)
