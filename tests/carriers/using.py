"""Programs of carriers: how they are run, waited for, and ended."""
import os
import signal
import socket
import subprocess
import time
from pathlib import Path
from typing import Callable, Optional

# Far more than any command of a carrier takes here.
SECONDS = 120


class CannotRun(Exception):
    """A carrier cannot run here; its message says why."""


def do(words: list, cwd: Optional[Path] = None, env: Optional[dict] = None, may_fail: bool = False) -> str:
    """Runs a command to its end, and answers what it said on standard error."""
    whole = {**os.environ, **(env or {})}
    words = list(map(str, words))
    try:
        ran = subprocess.run(words, cwd=cwd, env=whole, stdin=subprocess.DEVNULL, capture_output=True, timeout=SECONDS)
    except subprocess.TimeoutExpired as wrong:
        raise CannotRun(f"{' '.join(words)}: not within {SECONDS} seconds") from wrong
    said = (ran.stderr or ran.stdout).decode(errors="replace").strip()
    if ran.returncode != 0 and not may_fail:
        raise CannotRun(f"{' '.join(words)}: status {ran.returncode}: {said[-500:]}")
    return said


def begin(words: list, log: Path, cwd: Optional[Path] = None, env: Optional[dict] = None) -> subprocess.Popen:
    """Begins a command that runs on, in a group of processes of its own."""
    with log.open("ab") as stream:
        return subprocess.Popen(
            list(map(str, words)),
            cwd=cwd,
            env={**os.environ, **(env or {})},
            stdin=subprocess.DEVNULL,
            stdout=stream,
            stderr=stream,
            start_new_session=True,
        )


def kill(running: Optional[subprocess.Popen]) -> None:
    """Kills a command with all that it began."""
    if running is not None and running.poll() is None:
        os.killpg(running.pid, signal.SIGKILL)
        running.wait(SECONDS)


def end(running: Optional[subprocess.Popen]) -> None:
    """Asks a command to end, and kills it if it does not."""
    if running is not None and running.poll() is None:
        running.terminate()
        try:
            running.wait(3)
        except subprocess.TimeoutExpired:
            kill(running)


def kill_when(words: list, is_half: Callable[[], bool], cwd: Optional[Path] = None, env: Optional[dict] = None) -> bool:
    """Runs a command, and kills it as soon as something holds. Whether that was before its end."""
    running = begin(words, Path(os.devnull), cwd, env)
    latest = time.monotonic() + SECONDS
    while running.poll() is None and time.monotonic() < latest:
        if is_half():
            kill(running)
            return True
        time.sleep(0.002)
    kill(running)
    return False


def wait_until(holds: Callable[[], bool], what: str, seconds: float = SECONDS) -> None:
    latest = time.monotonic() + seconds
    while not holds():
        if time.monotonic() > latest:
            raise CannotRun(f"{what}: not within {seconds} seconds")
        time.sleep(0.02)


def free_port() -> int:
    with socket.socket() as one:
        one.bind(("127.0.0.1", 0))
        return one.getsockname()[1]


def answers(port: int) -> bool:
    with socket.socket() as one:
        one.settimeout(1)
        return one.connect_ex(("127.0.0.1", port)) == 0


def unmount(place: Path) -> None:
    """Takes a mount away, as far as there is one."""
    if os.path.ismount(place) or is_dead(place):
        subprocess.run(["umount", "-l", place], capture_output=True, timeout=SECONDS)


def is_dead(place: Path) -> bool:
    """Whether a place is a mount whose program was killed."""
    try:
        place.stat()
    except FileNotFoundError:
        return False
    except OSError:
        return True
    return False
