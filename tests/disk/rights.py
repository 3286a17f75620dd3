"""Who may read a project, and PROJECT.new, before and after each command."""
import errno
import os
import shutil
import stat
from pathlib import Path

from between import Between
from order import BOOK, CHANGES, HELD, with_a_replaced_text
from rows.vectors import FIRST
from stage import Answer, Tally, run

MODES = (0o600, 0o640, 0o664, 0o604)
UMASKS = (0o000, 0o022, 0o077)
TEXT = b"\\v 1 As\n"
EDIT = ["edit", "p", "MAT 1:1"]
# A group of nobody's, and a user without groups.
GROUP, NOBODY = 12_345, 65_534


def mode_of(path: Path) -> int:
    return stat.S_IMODE(path.stat().st_mode)


def check_rights(tally: Tally, between: Between, work: Path) -> None:
    folder = work / "rights"
    folder.mkdir()
    folder.joinpath("book").write_bytes(BOOK)
    folder.joinpath("bundle").write_bytes(FIRST)
    check_modes(tally, between.program, folder)
    check_new(tally, between, folder)
    check_begun(tally, between.program, folder)
    if os.geteuid() == 0:
        check_group(tally, between, folder)
    else:
        print("disk: not run, since this is not root: a group that is another one's")


def put(folder: Path, content: bytes, mode: int) -> Path:
    """Has a project of this mode stand in the folder, and nothing beside it."""
    folder.joinpath("p.new").unlink(missing_ok=True)
    project = folder / "p"
    project.unlink(missing_ok=True)
    project.write_bytes(content)
    project.chmod(mode)
    return project


def check_modes(tally: Tally, program: Path, folder: Path) -> None:
    """Each command that changes a project leaves it the mode that it had, whatever a new file's mode would be."""
    replaced = with_a_replaced_text(program, folder)
    for words, given, content in CHANGES:
        for mode in MODES:
            for umask in UMASKS:
                project = put(folder, replaced if content is None else content, mode)
                before = project.stat()
                answer = run(program, folder, words, given, umask)
                is_replaced = answer.status == 0 and project.stat().st_ino != before.st_ino
                what = f"{words[0]} of a project of mode {mode:o} by umask {umask:o}"
                tally.check(is_replaced and mode_of(project) == mode, f"{what}: {mode_of(project):o}, {answer}")


def check_new(tally: Tally, between: Between, folder: Path) -> None:
    """PROJECT.new, at each call from its making to its renaming, gives nobody more than the project does.

    A renaming that fails is tried once more with both files closed, so each one fails here."""
    given = folder.parent / "text"
    given.write_bytes(TEXT)
    for mode in MODES:
        for refused in ("write:1", "look:6", "mode:1", "sync:1", "rename:1+"):
            if (mode == 0o600) and refused == "mode:1":
                # It has that mode by then.
                continue
            project = put(folder, HELD, mode)
            answer = between.run(folder, EDIT, given, f"{refused}:{errno.EIO}").answer
            new = folder / "p.new"
            allowed = mode | 0o600
            is_kept = new.exists() and mode_of(new) & ~allowed == 0 and mode_of(project) == mode
            is_private = refused in ("sync:1", "rename:1+") or new.exists() and mode_of(new) == 0o600
            is_refused = (answer.status, answer.output, answer.error) == (1, b"", b"fault 130\n")
            tally.check(is_kept and is_private and is_refused and project.read_bytes() == HELD, f"{refused} at mode {mode:o}: {answer}")


def check_begun(tally: Tally, program: Path, folder: Path) -> None:
    """A project begins with the mode that the system gives a new file."""
    for umask in UMASKS:
        name = f"begun{umask:o}"
        answer = run(program, folder, ["init", name, "ana"], umask=umask)
        project = folder / name
        tally.check(answer == Answer(0, b"", b"") and mode_of(project) == 0o666 & ~umask, f"init by umask {umask:o}: {mode_of(project):o}")


def check_group(tally: Tally, between: Between, folder: Path) -> None:
    """The group stays where the system lets it be; where it does not, the new one may do what all others may."""
    program = between.program
    given = folder.parent / "text"
    project = put(folder, HELD, 0o640)
    shutil.chown(project, group=GROUP)
    answer = run(program, folder, EDIT, TEXT)
    is_same = project.stat().st_gid == GROUP and mode_of(project) == 0o640
    tally.check(answer.status == 0 and is_same, f"the group of a project: {project.stat()}, {answer}")
    for mode, wanted in ((0o640, 0o600), (0o664, 0o644), (0o660, 0o600), (0o604, 0o644)):
        project = put(folder, HELD, mode)
        shutil.chown(project, group=GROUP)
        answer = between.run(folder, EDIT, given, f"group:1:{errno.EPERM}").answer
        is_less = project.stat().st_gid != GROUP and mode_of(project) == wanted
        tally.check(answer.status == 0 and is_less, f"a group that cannot be kept, of mode {mode:o}: {mode_of(project):o}, {answer}")
    project = put(folder, HELD, 0o664)
    shutil.chown(project, group=GROUP)
    folder.chmod(0o777)
    answer = run(program, folder, EDIT, TEXT, user=NOBODY)
    folder.chmod(0o755)
    tally.check(answer.status == 0 and mode_of(project) == 0o644, f"a project of another group: {mode_of(project):o}, {answer}")
