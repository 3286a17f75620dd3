"""Two commands that begin the same project at once."""
import shutil
import subprocess
import time
from pathlib import Path

from model.bundles import write_project
from stage import SECONDS, Tally

TIMES = 100
NAMES = ("ana", "ben")


# What holds up two commands, so that each gets into the other's way: the first waits before it locks the file that it has made, so
# that the second takes that for a left one; the second waits before it removes it, and both before they give a project its name.
HELD_UP = (("flock:delay_enter=400000:when=1", "link:delay_enter=1200000"), ("unlink:delay_enter=800000:when=1", "link:delay_enter=1000000"))
BETWEEN = 0.15


def check_beginners(tally: Tally, program: Path, work: Path) -> None:
    folder = work / "beginners"
    folder.mkdir()
    won = {name: 0 for name in NAMES}
    for number in range(TIMES):
        # Each of them is the first to be started every second time.
        names = NAMES if number % 2 == 0 else NAMES[::-1]
        project = folder / f"p{number}"
        won[check_one_begun(tally, project, names, [begin(program, project, name) for name in names])] += 1
    tally.check(len(list(folder.iterdir())) == TIMES, "nothing stands beside the projects")
    print("disk: of two that began a project at once, " + ", ".join(f"{name} did {count} times" for name, count in won.items()))
    if shutil.which("strace") is None:
        print("disk: not run, since strace is not installed: two that begin a project and hold each other up")
        return
    commands = []
    for name, delays in zip(NAMES, HELD_UP):
        commands.append(begin(program, folder / "held", name, *delays))
        time.sleep(BETWEEN)
    check_one_begun(tally, folder / "held", NAMES, commands)


def begin(program: Path, project: Path, name: str, *delays: str) -> subprocess.Popen:
    """A command that begins a project, held up at some calls."""
    line = [program, "init", project.name, name]
    if delays:
        held_up = [word for delay in delays for word in ("-e", f"inject={delay}")]
        line = ["strace", "-qq", "-o", "/dev/null", "-e", "trace=flock,link,unlink", *held_up, *line]
    return subprocess.Popen(line, cwd=project.parent, stdout=subprocess.PIPE, stderr=subprocess.PIPE)


def check_one_begun(tally: Tally, project: Path, names: tuple[str, ...], commands: list[subprocess.Popen]) -> str:
    """One of them begins the project, which is its own, and the other one is refused; who began it."""
    answers = [(*command.communicate(timeout=SECONDS), command.returncode) for command in commands]
    begun = [name for name, answer in zip(names, answers) if answer == (b"", b"", 0)]
    refused = [name for name, answer in zip(names, answers) if answer == (b"", b"fault 130\n", 1)]
    is_one = len(begun) == 1 and len(refused) == 1
    found = project.read_bytes()
    tally.check(is_one and found == write_project(begun[0], {}), f"two at once: {answers}, and there is {found!r}")
    return begun[0] if begun else names[0]
