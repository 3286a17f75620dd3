"""What the benches of bundles have in common: a proved program and a plain one, built and run in turn."""
import os
import subprocess
import sys

from programs import peak, plain_program

HERE = os.path.dirname(os.path.abspath(__file__))
TOP = os.path.dirname(HERE)
PROVED = os.path.join(TOP, "crates/call_times/out/call_times")
MAGIC = b"USFMSR1\n"


def build(work, folder):
    """What the proved program and the plain one of a job are run as. The proved one is that of bench/build_proved.sh,
    whose job is the folder's name, the plain one FOLDER/plain.rs."""
    subprocess.run([os.path.join(HERE, "build_proved.sh")], check=True)
    return [PROVED, os.path.basename(folder)], [plain_program(work, folder)]


def write_bundles(count, names):
    """Writes bundles of this many operations each: the first of a generated stream of three."""
    generate = os.path.join(HERE, "fold/generate.py")
    stream = subprocess.run([generate, str(count * 10 // 6)], stdout=subprocess.PIPE, check=True).stdout
    for name, bundle in zip(names, stream.split(MAGIC)[1:]):
        with open(name, "wb") as out:
            out.write(MAGIC + bundle)


def once(program, words):
    """Nanoseconds of the least round, and what else the program wrote."""
    ran = subprocess.run([*program, *words], stdout=subprocess.PIPE, text=True)
    if ran.returncode:
        sys.exit("%s failed" % " ".join(program))
    nanos, *told = ran.stdout.split()
    return int(nanos), told


def turn_about(programs, words, turns):
    """The least nanoseconds of each program, and what they wrote, in which they have to agree."""
    least = [float("inf")] * len(programs)
    answers = []
    for _ in range(turns):
        for i, program in enumerate(programs):
            nanos, told = once(program, words)
            least[i] = min(least[i], nanos)
            answers.append(told)
    if any(told != answers[0] for told in answers):
        sys.exit("the two programs answer differently")
    return least, answers[0]


def compare_jobs(programs, jobs, turns=7, limit=1.5):
    """Prints the least time and the peak memory of both programs for each job, which has a label and its words. Answers
    whether the proved one takes at most this many times as long in each."""
    held = True
    for label, words in jobs:
        least, _ = turn_about(programs, words, turns)
        peaks = [peak([*program, *words]) for program in programs]
        ratio = least[0] / least[1]
        print("%-18s proved %9.3f ms %7d KB   plain %9.3f ms %7d KB   time %.2f   memory %.2f"
              % (label, least[0] / 1e6, peaks[0], least[1] / 1e6, peaks[1], ratio, peaks[0] / peaks[1]))
        held = held and ratio <= limit
    return held
