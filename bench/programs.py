"""What the benches of whole programs on a project have in common: runs on fresh copies of it, turn about."""
import os
import shutil
import subprocess
import sys
import tempfile
import time

HERE = os.path.dirname(os.path.abspath(__file__))
TOP = os.path.dirname(HERE)
PROGRAM = os.path.join(TOP, "crates/usfm_team/out/usfm_team")
TURNS = 7


def bytes_of(name):
    with open(name, "rb") as file:
        return file.read()


class Files:
    """The files that a generator writes into a folder, and a fresh copy of the project for each run."""

    def __init__(self, generate, folder):
        subprocess.run([generate, folder], check=True)
        self.folder = folder
        self.project = os.path.join(folder, "project")
        self.copy = os.path.join(folder, "copy")
        self.output = os.path.join(folder, "output")

    def named(self, name):
        return os.path.join(self.folder, name)

    def fresh(self):
        shutil.copy(self.project, self.copy)


def once(command, files):
    """The wall and the processor's seconds of one run, and its output, its status and the project that it leaves."""
    files.fresh()
    start = time.perf_counter()
    with open(files.output, "wb") as out:
        child = subprocess.Popen(command, stdin=subprocess.DEVNULL, stdout=out, stderr=subprocess.DEVNULL)
        _, status, usage = os.wait4(child.pid, 0)
    wall = time.perf_counter() - start
    child.returncode = os.waitstatus_to_exitcode(status)
    return (wall, usage.ru_utime + usage.ru_stime), (bytes_of(files.output), child.returncode, bytes_of(files.copy))


def peak(command, source=subprocess.DEVNULL):
    """Peak kilobytes of one run below `/usr/bin/time`: a child of this script would begin with the script's own."""
    with tempfile.NamedTemporaryFile("r") as written:
        subprocess.run(["/usr/bin/time", "-q", "-f", "%M", "-o", written.name, *command], stdin=source,
                       stdout=subprocess.DEVNULL, stderr=subprocess.DEVNULL)
        return int(written.read().split()[-1])


def peak_on_copy(command, files):
    files.fresh()
    return peak(command)


def turn_about(commands, files):
    """The least wall and processor's seconds of each command, and what each run answered."""
    least = [(float("inf"), float("inf"))] * len(commands)
    answers = []
    for _ in range(TURNS):
        for i, command in enumerate(commands):
            seconds, answer = once(command, files)
            least[i] = tuple(map(min, least[i], seconds))
            answers.append(answer)
    return least, answers


def agreed(programs, words, files):
    """The least wall and processor's seconds and the peak kilobytes of each program with these words. All have to
    answer alike, and none may refuse."""
    commands = [[program, *words] for program in programs]
    least, answers = turn_about(commands, files)
    if any(answer != answers[0] for answer in answers) or answers[0][1] != 0:
        sys.exit("%s: the programs answer differently, or refuse" % words[0])
    return least, [peak_on_copy(command, files) for command in commands], answers[0]


def built(words):
    """The program of the words, or the one of this repository, built where it has to be."""
    if words:
        return os.path.abspath(words[0])
    subprocess.run([os.path.join(TOP, "build")], check=True)
    return PROGRAM


def plain_program(work, folder):
    """FOLDER/plain.rs, built by bench/build_plain.sh."""
    plain = os.path.join(work, "plain")
    subprocess.run([os.path.join(HERE, "build_plain.sh"), os.path.join(folder, "plain.rs"), plain], check=True)
    return plain


def memory():
    """A folder that is no disk, where there is one."""
    return "/dev/shm" if os.path.isdir("/dev/shm") else None
