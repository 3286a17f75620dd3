"""The ways in which the calls of the program can fail, and what it answers then."""
import errno
import os
from dataclasses import dataclass, replace
from typing import Iterator, Optional

from between import Answer, Call
from plays import PROJECT

ERRORS = (errno.EIO, errno.ENOSPC, errno.EACCES)
# What a file system answers that has no locks, and one that syncs no folders.
NO_LOCKS = (errno.EOPNOTSUPP, errno.ENOSYS)
NO_SYNCED_FOLDERS = (errno.EINVAL, errno.EOPNOTSUPP)
KILL = "kill"
# A project that is looked at before it is opened: a folder may stand there in its place.
UNOPENED = "an unopened project"
STANDARD_INPUT, STANDARD_OUTPUT, STANDARD_ERROR = "0", "1", "2"


@dataclass(frozen=True)
class Wanted:
    """What a play answers where nothing fails, and the project's file before and after it."""

    answer: Answer
    before: Optional[bytes]
    after: Optional[bytes]
    # The files that a refusal names: those that are taken in, where there are several, and those of a project's status.
    several: tuple[str, ...]
    # The exit status of a refusal, and the file that it names where the project's file cannot be written: none, unless it is OURS.
    status: int = 1
    written: str = ""

    def refused(self, output: bytes, error: bytes) -> Answer:
        """A refusal, after what was written by then."""
        return Answer(self.status, output, error)

    def unwritten(self) -> bytes:
        """What the program writes where the project's file cannot be written."""
        return b"fault 130\n" + (b"in %s\n" % self.written.encode() if self.written else b"")

    def refusal(self, line: bytes, on: str) -> bytes:
        """What the program writes of a fault that a call on this file leads to."""
        return line + b"in %s\n" % on.encode() if on in self.several else line

    def without_file(self) -> Optional[Answer]:
        """The refusal without the line that names the file, if it has one."""
        fault, _, file = self.answer.error.partition(b"\n")
        return Answer(self.answer.status, self.answer.output, fault + b"\n") if file.startswith(b"in ") else None


def refusals(wanted: Wanted, calls: list[Call]) -> Iterator[tuple[str, Answer, bool]]:
    """Each way to have a call fail, what the program then answers, and whether the project is changed."""
    is_renamed = False
    gone = {STANDARD_OUTPUT: 0, STANDARD_ERROR: 0}
    for name, call in named(calls):
        for how in hows(call):
            answer = answer_of(wanted, call, how, gone)
            yield f"{name}:{how}", answer, is_renamed or is_done(call, how)
            if call.kind == "rename":
                refused = wanted.refused(wanted.answer.output[: gone[STANDARD_OUTPUT]], wanted.unwritten())
                yield f"{name}+:{how}", refused, is_renamed
        is_renamed = is_renamed or call.kind == "rename"
        if call.kind == "write" and call.on in gone:
            gone[call.on] += call.answer
    for kind in ("read", "write"):
        yield f"{kind}:1+:short", wanted.answer, True


def kills(calls: list[Call]) -> Iterator[tuple[str, bool]]:
    """Each call in whose place the program can be killed, and whether the project is changed by then."""
    is_renamed = False
    for name, call in named(calls):
        yield f"{name}:{KILL}", is_renamed
        is_renamed = is_renamed or call.kind == "rename"


def named(calls: list[Call]) -> Iterator[tuple[str, Call]]:
    """The calls with their kinds and numbers. One on a handle that was opened has the name that it was opened by."""
    made: dict[str, int] = {}
    opened: dict[str, str] = {}
    is_opened = any(call.kind == "open" and call.on == PROJECT for call in calls)
    for call in calls:
        made[call.kind] = made.get(call.kind, 0) + 1
        is_unopened = is_opened and call.kind == "look" and call.on == PROJECT and PROJECT not in opened.values()
        yield f"{call.kind}:{made[call.kind]}", replace(call, on=UNOPENED if is_unopened else opened.get(call.on, call.on))
        if call.kind == "open":
            opened[str(call.answer)] = call.on


def hows(call: Call) -> list[str]:
    """The ways in which a call can fail, and those in which it moves less."""
    found = [str(error) for error in ERRORS]
    if call.kind in ("read", "write"):
        found += [str(errno.EINTR), "short"]
    if call.kind == "write":
        found.append("none")
    if call.kind == "lock":
        found += [str(error) for error in NO_LOCKS]
    if call.kind == "sync":
        found += [str(error) for error in NO_SYNCED_FOLDERS]
    return found


def is_done(call: Call, how: str) -> bool:
    """Whether the command does its work although this call fails so: what writes its fault goes on after an interruption."""
    if call.kind == "lock":
        return how in map(str, NO_LOCKS)
    if call.kind == "sync":
        return is_folder(call) and how in map(str, NO_SYNCED_FOLDERS)
    is_told_again = call.kind == "write" and call.on == STANDARD_ERROR and how == str(errno.EINTR)
    # What cannot be opened for writing is opened for reading.
    is_opened_again = call.kind == "open" and call.asked & os.O_ACCMODE == os.O_RDWR and not call.asked & os.O_CREAT
    # Where the root folder is not opened, that in which the program runs is.
    is_held_by_another = call.kind == "open" and call.on == "/"
    # What cannot be renamed while it is open is closed first.
    is_renamed_again = call.kind == "rename"
    # What cannot be looked at is no folder, and is read as a file.
    is_no_folder = call.kind == "look" and call.on in ("summary", "bundle", UNOPENED)
    is_again = is_told_again or is_opened_again or is_renamed_again
    return how == "short" or call.kind == "close" or is_again or is_held_by_another or is_no_folder


def is_folder(call: Call) -> bool:
    return call.on == "." or call.on.endswith("/far")


def answer_of(wanted: Wanted, call: Call, how: str, gone: dict[str, int]) -> Answer:
    """What the program answers where this call fails so, after this many bytes went out by each stream."""
    written = wanted.answer.output[: gone[STANDARD_OUTPUT]]
    if is_done(call, how):
        return wanted.answer
    if call.kind == "write" and call.on == STANDARD_ERROR:
        return Answer(wanted.answer.status, written, without_line(wanted.answer.error, gone[STANDARD_ERROR]))
    if call.kind == "write" and call.on == STANDARD_OUTPUT:
        return wanted.refused(written, b"fault 90 %d\n" % len(written))
    is_made = call.kind == "open" and call.asked & os.O_CREAT
    is_read = call.kind == "read" or call.kind == "open" and not is_made and not is_folder(call)
    return wanted.refused(written, wanted.refusal(b"fault 120\n", call.on) if is_read else wanted.unwritten())


def without_line(error: bytes, gone: int) -> bytes:
    """What the program writes where a write fails after this many bytes: the fault's line is one write, and the file's comes after it.
    A report is one write."""
    if not error.startswith(b"fault "):
        return error[:gone]
    fault = error.index(b"\n") + 1
    return error[fault:] if gone < fault else error[:gone]
