"""Counts what plays meet, to show any part of the rules that no play reaches."""
from collections import Counter

from making.plays import Play, Wanted
from model.checks import CODES

FAULTS = [10, 20, 21, 30, 40, 41, 42, 50, 51, 52, *range(60, 73), 80]
FAULTS += [81, 82, 83, 84, 85, 100, 110, 120, 121, 130, 131, 132, 133, 134]
# The lines of `status` after the first.
STANDING = ("books", "shown", "replaced", "conflict", "awaited", "lacks", "lacked")
# The faults, the codes and the lines of `status` that plays may meet.
THINGS = [f"fault {number}" for number in FAULTS] + list(CODES) + [f"status with {word}" for word in STANDING]
# Those of them that the plays of the default run do not meet. The rows of tests/program do.
ELSEWHERE = ["fault 52", "fault 72", "fault 100", "fault 130", "fault 132", "fault 133", "fault 134"]


class Reach:
    """How often each thing was met."""

    def __init__(self) -> None:
        self.counts: Counter[str] = Counter()

    def add(self, play: Play, wanted: list[Wanted]) -> None:
        """Counts what a play meets."""
        for step, want in zip(play, wanted):
            words = [it for it in step.words if it != "--"]
            command = words[0] if words else "no words"
            self.counts[f"status {want.answer.status}"] += 1
            if want.answer.status == 1:
                error = want.answer.error[want.answer.error.index(b"fault ") :]
                self.counts[f"fault {error.split()[1].decode()}"] += 1
                self.counts[f"{command} refused by {error.split()[1].decode()}"] += command == "sync"
                self.counts["one of several files refused"] += b"\nin " in error
            elif want.answer.status == 0:
                self.counts[f"{command} done"] += 1
                self.counts["several files taken in"] += command in ("import", "receive") and len(words) > 3
                self.add_output(command, want.answer.output)

    def add_output(self, command: str, output: bytes) -> None:
        """Counts the lines of what a command writes."""
        lines = output.split(b"\n")[:-1]
        if command == "check":
            self.counts.update(line.split()[2].decode() for line in lines)
        elif command == "report":
            for kind in (b"conflict ", b"awaited "):
                self.counts[kind.decode().strip()] += sum(line.startswith(kind) for line in lines)
            self.counts["report without a line"] += not lines
        elif command == "status":
            self.counts.update(f"status with {line.split()[0].decode()}" for line in lines)
        elif command == "progress":
            self.counts["chapter"] += len(lines)
        elif command == "find":
            self.counts["hit"] += len(lines)
        elif command == "words":
            self.counts["word"] += len(lines)
            self.counts["word of several segments"] += sum(line.count(b" ") > 1 for line in lines)
            self.counts["word not of ASCII"] += sum(not line.isascii() for line in lines)
        elif command in ("import", "receive"):
            self.counts[output.split()[0].decode() + (" 0" if output.split()[1] == b"0" else " more")] += 1
        elif command == "sync" or command == "export" and b"wrote" in output:
            self.counts.update(f"{command} {line.split()[0].decode()}" for line in lines)
        elif command == "settle":
            self.counts.update(f"answers {line.split()[0].decode()}" for line in lines[-2:] if not line.endswith(b" 0"))
        elif command == "shown":
            self.counts[f"shown with {'no' if not output else 'an'} operation"] += 1

    def unmet(self) -> list[str]:
        """The faults, the codes and the lines that no play met."""
        return [it for it in THINGS if not self.counts[it]]

    def table(self) -> str:
        """The table of all counts."""
        return "\n".join(f"{self.counts[it]:8} {it}" for it in sorted(self.counts) if self.counts[it])
