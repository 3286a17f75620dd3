"""One folder for each of the two programs, with the same files in them."""
import subprocess
from pathlib import Path
from typing import Sequence

# Far more than any command takes: one that waits for ever is shown as one that fails.
SECONDS = 100


def run(program: Path, folder: Path, words: Sequence[str], given: bytes = b"") -> tuple[int, bytes, bytes]:
    """What a command answers: its status, and both outputs."""
    try:
        ran = subprocess.run([program, *words], cwd=folder, input=given, capture_output=True, timeout=SECONDS)
    except subprocess.TimeoutExpired:
        return -1, b"", b"it does not end"
    return ran.returncode, ran.stdout, ran.stderr


def tree(folder: Path) -> dict[str, bytes]:
    """All that is in a folder: files with their bytes, and folders with a slash."""
    found = {}
    for path in sorted(folder.rglob("*")):
        name = path.relative_to(folder).as_posix()
        found[name if path.is_file() else f"{name}/"] = path.read_bytes() if path.is_file() else b""
    return found


def differing(linux: dict[str, bytes], windows: dict[str, bytes]) -> list[str]:
    """What is another file in one of two trees, or in one of them alone."""
    return [
        f"{name}: linux {linux.get(name)!r}, windows {windows.get(name)!r}"
        for name in sorted(linux.keys() | windows.keys())
        if linux.get(name) != windows.get(name)
    ]


class Both:
    def __init__(self, linux: Path, windows: Path, home: Path) -> None:
        self.sides = [(linux, home / "linux"), (windows, home / "windows")]
        for _, folder in self.sides:
            folder.mkdir(parents=True)

    def make_folder(self, name: str) -> None:
        for _, folder in self.sides:
            (folder / name).mkdir()

    def write(self, name: str, content: bytes) -> None:
        for _, folder in self.sides:
            (folder / name).write_bytes(content)

    def cut(self, name: str, share: float) -> None:
        """Leaves a share of a file's bytes, if the file is there."""
        for _, folder in self.sides:
            path = folder / name
            if path.is_file():
                data = path.read_bytes()
                path.write_bytes(data[: int(share * len(data))])

    def output_to(self, name: str, words: Sequence[str]) -> None:
        """Each program's output, in a file of its folder."""
        for program, folder in self.sides:
            (folder / name).write_bytes(run(program, folder, words)[1])

    def difference(self, words: Sequence[str], given: bytes = b"") -> str:
        """Runs a command on both, and answers in what they differ then, or nothing."""
        linux, windows = (run(program, folder, words, given) for program, folder in self.sides)
        if linux != windows:
            return f"linux {linux}, windows {windows}"
        return "; ".join(differing(*(tree(folder) for _, folder in self.sides)))
