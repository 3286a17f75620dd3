"""What the program is built from: one digest over it, and what release/SOURCES states."""
from __future__ import annotations

import hashlib
import re
import shutil
import subprocess
import sys
from pathlib import Path

RELEASE = Path(__file__).resolve().parent
TOP = RELEASE.parent
# The program as the gate and ./build leave it.
BUILT = TOP / "crates/usfm_team/out/usfm_team"
# What links the program for Windows of the object that the toolchain leaves beside that.
LINK, LINKER, LINKED_BY = TOP / "windows/link", "x86_64-w64-mingw32-gcc", "x86_64-w64-mingw32-ld"
TESTS = re.compile(r"^#\[cfg\(test\)\]\nmod (\w+);$", re.M)


def lines_of_crates() -> dict[str, str]:
    """The lines of crates.txt that name the crates that the program is built of: its own, and those of this repository below it."""
    lines = {line.split(":")[0].strip(): line for line in (TOP / "crates.txt").read_text().splitlines() if line.split("#")[0].strip()}
    found, waiting = {}, ["usfm_team"]
    while waiting:
        crate = waiting.pop()
        if crate in lines and crate not in found:
            found[crate] = lines[crate]
            waiting += re.findall(r"\w+", lines[crate].split("#")[0].partition(":")[2])
    return found


def tests_of(crate: Path) -> set[str]:
    """The modules of a crate that are built for its tests alone."""
    roots = [it for it in (crate / "src/lib.rt", crate / "src/main.rt") if it.is_file()]
    return {name for root in roots for name in TESTS.findall(root.read_text())}


def files() -> list[str]:
    """The files that a build of the program reads, by their paths, in the order of the paths' bytes.

    Of the sources those of the tests are left out, since a build leaves them out.
    """
    found = ["HANDLES", "crates.txt"]
    for crate in (TOP / "crates" / name for name in lines_of_crates()):
        tests = tests_of(crate)
        for part in ("src", "specs", "proofs"):
            for path in (crate / part).rglob("*"):
                module = path.relative_to(crate / part).parts[0].split(".")[0]
                if path.is_file() and module not in tests:
                    found.append(path.relative_to(TOP).as_posix())
    return sorted(found, key=str.encode)


def content(path: str) -> bytes:
    """What a build of the program reads of a file: of crates.txt the lines of its crates, in the order of their bytes."""
    if path == "crates.txt":
        return "".join(f"{line}\n" for line in sorted(lines_of_crates().values(), key=str.encode)).encode()
    return (TOP / path).read_bytes()


def digest_of(paths: list[str]) -> str:
    lines = (f"{hashlib.sha256(content(path)).hexdigest()}  {path}\n" for path in paths)
    return hashlib.sha256("".join(lines).encode()).hexdigest()


def digest() -> str:
    """The SHA-256 of what `sha256sum` writes of these files, given at the top of the repository, with those lines as crates.txt."""
    return digest_of(files())


def shim() -> str:
    """The same of what is linked with the program's object for Windows, and of what links it."""
    paths = [it for it in LINK.parent.iterdir() if it.suffix in (".c", ".h", ".ld") or it == LINK]
    return digest_of(sorted(it.relative_to(TOP).as_posix() for it in paths))


def toolchain() -> str | None:
    """The line of `rt version`, or nothing where there is no toolchain that answers."""
    if shutil.which("rt") is None:
        return None
    ran = subprocess.run(["rt", "version"], stdout=subprocess.PIPE, stderr=subprocess.DEVNULL, stdin=subprocess.DEVNULL, text=True)
    return ran.stdout.strip() if ran.returncode == 0 else None


def is_built() -> bool:
    """Whether a program was built here, and no source was changed after it."""
    return BUILT.is_file() and all((TOP / path).stat().st_mtime <= BUILT.stat().st_mtime for path in files())


def linker() -> str | None:
    """What makes programs for Windows, as it calls itself, or nothing where it is not installed."""
    if shutil.which(LINKER) is None:
        return None
    return ", ".join(subprocess.check_output([it, "--version"], text=True).splitlines()[0] for it in (LINKER, LINKED_BY))


def object_of(program: Path, work: Path) -> Path | None:
    """The object that stands beside a program, if the toolchain's linker makes these bytes of it, which is tried in a folder for work: rt ci
    may take a program from what it has kept, and leave no object there, or that of other sources."""
    made, rt = program.with_name("usfm_team.o"), shutil.which("rt")
    if not made.is_file() or rt is None:
        return None
    kit, tried = Path(rt).resolve().parent.parent, work / "usfm_team"
    words = ["--target", "x86_64-unknown-linux-gnu", "--toolchain", kit / "toolchain", "-o", tried, made]
    words = [kit / "bin/rattle-link", *words, kit / "c/libos_c.a", kit / "c/liblibc_c.a"]
    ran = subprocess.run(words, stdout=subprocess.DEVNULL, stderr=subprocess.DEVNULL)
    return made if ran.returncode == 0 and tried.read_bytes() == program.read_bytes() else None


def linked(made: Path, work: Path) -> bytes:
    """The program for Windows of an object, linked in a folder for work."""
    subprocess.run([LINK, made, work / "usfm_team.exe"], check=True)
    return (work / "usfm_team.exe").read_bytes()


def stated() -> dict[str, str]:
    """The lines of release/SOURCES, each by its first word, or nothing where no version was made."""
    path = RELEASE / "SOURCES"
    return dict(line.split(" ", 1) for line in path.read_text().splitlines()) if path.is_file() else {}


def commits_since() -> str:
    """How many commits came after that of release/SOURCES, in words, where Git can say it."""
    def git(*words: str) -> str:
        command = ["git", "-c", "safe.directory=*", "-C", TOP, *words]
        return subprocess.check_output(command, text=True, stderr=subprocess.DEVNULL).strip()

    try:
        last = git("log", "-1", "--format=%H", "--", "release/SOURCES")
        return f", {git('rev-list', '--count', f'{last}..HEAD')} commits ago" if last else ""
    except (OSError, subprocess.CalledProcessError):
        return ""


def difference() -> str | None:
    """What differs between what the release was built from and what stands here; of the toolchain only where there is one."""
    said, here = stated(), toolchain()
    if said.get("sources") != digest():
        return f"release is of other sources{commits_since()}"
    if here not in (None, said.get("toolchain")):
        return f"release is of other sources: its toolchain was {said.get('toolchain')}"
    return None


def versions() -> dict[str, tuple[str, str]]:
    """The versions of release/CHANGES.md, the latest first: of each its date and what changed."""
    text = (RELEASE / "CHANGES.md").read_text()
    parts = re.split(r"^## (\S+), (\d{4}-\d\d-\d\d)$", text, flags=re.M)[1:]
    return {number: (date, what.strip()) for number, date, what in zip(parts[::3], parts[1::3], parts[2::3])}


def version_of(program: Path) -> str:
    """The version that a program prints, which has to be one of those."""
    version = subprocess.check_output([program, "--version"], text=True).split()[1]
    if version not in versions():
        sys.exit(f"release/CHANGES.md has not the version {version} of {program}")
    return version
