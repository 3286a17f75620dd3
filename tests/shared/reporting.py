"""What a script of tests counts, and how it ends."""
import threading
from dataclasses import dataclass, field

# More failures are not shown one by one.
MOST_SHOWN = 60


@dataclass
class Tally:
    """What passed and what failed, as several threads may say it."""

    passed: int = 0
    failures: list[str] = field(default_factory=list)
    lock: threading.Lock = field(default_factory=threading.Lock)

    def check(self, is_right: bool, what: str) -> None:
        self.add(is_right, [] if is_right else [what])

    def add(self, passed: int, failures: list[str]) -> None:
        with self.lock:
            self.passed += passed
            self.failures += failures

    def end(self, name: str) -> int:
        """Prints what failed and the line by which a script of this name ends.

        The answer is its exit status."""
        if not self.passed and not self.failures:
            self.failures.append("nothing was tried")
        for failure in self.failures[:MOST_SHOWN]:
            print(f"{name}: {failure}")
        if len(self.failures) > MOST_SHOWN:
            print(f"{name}: and {len(self.failures) - MOST_SHOWN} more")
        print(f"{name}: {self.passed} passed, {len(self.failures)} failed")
        return 1 if self.failures else 0
