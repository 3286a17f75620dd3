"""The program for Windows under wine: a script that runs it as the program of Linux is run."""
import os
import shutil
import subprocess
from pathlib import Path
from typing import Optional

# Wine itself, and the linker that windows/link calls, of Debian's `wine64` and `gcc-mingw-w64-x86-64`.
LOADERS = ("/usr/lib/wine/wine64", "wine64")
LINKER = "x86_64-w64-mingw32-gcc"
# Far more than it takes to make what wine keeps in a folder.
SECONDS = 300

# Nothing that wine says of itself stands among what the program says. By another LC_ALL, wine loses letters of the words and names.
SCRIPT = """#!/bin/sh
export LC_ALL=C.UTF-8 WINEPREFIX='{prefix}' WINEDEBUG=-all WINEDLLOVERRIDES='mscoree,mshtml='
exec '{loader}' '{program}' "$@"
"""


def lacking() -> Optional[str]:
    """What is not installed, if anything."""
    if not any(map(shutil.which, LOADERS)):
        return "wine"
    if not shutil.which(LINKER):
        return LINKER
    return None


class Wine:
    """Wine with a folder of its own, and a process that keeps it going: what it starts at first and ends at last has the outputs of the
    command that it is started for, and whoever reads these would wait for it."""

    def __init__(self, work: Path) -> None:
        self.prefix = work / "wine"
        self.work = work
        self.loader = next(filter(None, map(shutil.which, LOADERS)))
        self.environment = dict(os.environ, WINEPREFIX=str(self.prefix), WINEDEBUG="-all", WINEDLLOVERRIDES="mscoree,mshtml=")
        quiet = {"stdout": subprocess.DEVNULL, "stderr": subprocess.DEVNULL, "env": self.environment}
        begin = [self.loader, "wineboot", "--init"]
        subprocess.run(begin, stdin=subprocess.DEVNULL, timeout=SECONDS, check=True, **quiet)
        self.keeper = subprocess.Popen([self.loader, "cmd"], stdin=subprocess.PIPE, **quiet)

    def script(self, program: Path) -> Path:
        """A script that runs a program for Windows."""
        path = self.work / f"{program.stem}.run"
        path.write_text(SCRIPT.format(prefix=self.prefix, loader=self.loader, program=program))
        path.chmod(0o755)
        return path

    def end(self) -> None:
        """Ends what was begun: wine ends by itself once nothing runs in it."""
        self.keeper.stdin.close()
        self.keeper.wait(timeout=SECONDS)
        server = shutil.which("wineserver")
        if server:
            subprocess.run([server, "-w"], env=self.environment, timeout=SECONDS, check=False)


def linked(top: Path, made: Path, work: Path, counted: bool) -> Path:
    """The program that `windows/link` makes of an object."""
    program = work / ("counted.exe" if counted else "usfm_team.exe")
    words = ["--counted"] if counted else []
    subprocess.run([top / "windows/link", *words, made, program], check=True)
    return program
