"""Names as Windows has them: both slashes, letters of drives, either case, devices, and paths of any length."""
from pathlib import Path

from both import run, tree
from reporting import Tally

# More than the 260 units of a path that a program of Windows takes unless it does something about it.
LONG = ["long" * 25, "ש" * 60, "name" * 25]
DEVICES = ("NUL", "con", "COM1.sfm", "Aux.usfm", "sub\\prn", "\\\\.\\NUL", "LPT\u00b9")
# A second text of a file, and names of which Windows takes the last letter away.
OTHERS = ("sub\\p:x", "sub/p.", "sub/p ", "sub./p", "sub\\p\\")


def check_names(tally: Tally, program: Path, work: Path, prefix: Path) -> None:
    """`prefix` is the folder in which wine has its drives, and what stands for the computers of a network."""
    work.joinpath("sub").mkdir(parents=True)
    tally.check(run(program, work, ["init", "sub\\p", "ana"])[0] == 0, "a name with Windows' slash")
    whole = work.joinpath("sub/p").read_bytes()
    drive = "Z:" + str(work).replace("/", "\\")
    for name in ("SUB/P", "sub\\P", ".\\sub/../sub//p", f"{drive}\\sub\\p", f"\\\\?\\{drive}\\sub\\p"):
        tally.check(run(program, work, ["send", name]) == run(program, work, ["send", "sub/p"]), f"{name} is sub/p")
        answer = run(program, work, ["init", name, "ben"])
        tally.check(answer[0] == 1 and answer[2].startswith(b"fault 130\n"), f"{name} has a project: {answer}")
    for name in DEVICES:
        answer = run(program, work, ["receive", "sub/p", name])
        tally.check(answer[2].startswith(b"fault 120\n"), f"{name} is a device: {answer}")
        answer = run(program, work, ["init", name, "ben"])
        tally.check(answer[2].startswith(b"fault 130\n"), f"no project is a device: {answer}")
    for name in OTHERS:
        answer = run(program, work, ["send", name])
        tally.check(answer[2].startswith(b"fault 120\n"), f"{name!r} is nothing: {answer}")
        answer = run(program, work, ["init", name, "ben"])
        tally.check(answer[2].startswith(b"fault 130\n"), f"no project is made as {name!r}: {answer}")
    tally.check(tree(work) == {"sub/": b"", "sub/p": whole}, f"nothing else was made: {sorted(tree(work))}")
    check_words(tally, program, work)
    check_drives(tally, program, work, prefix / "drive_c")
    check_network(tally, program, work, prefix / "dosdevices/unc/server/share")
    check_long(tally, program, work)


def put_book(folder: Path, text: bytes = b"In") -> None:
    folder.mkdir(parents=True, exist_ok=True)
    (folder / "MAT.usfm").write_bytes(b"\\id MAT\n\\c 1\n\\v 1 " + text + b"\n")


def check_words(tally: Tally, program: Path, work: Path) -> None:
    """The program takes paths apart at `/`: so those of a line have it, and a text with `\\` is as it was typed."""
    put_book(work / "w/texts")
    for place, words in (("w", ["join", "..\\w\\texts", "ana"]), (".", ["sync", "w\\texts"]), ("w/texts", ["sync", ".\\"])):
        answer = run(program, work / place, words)
        tally.check(answer[0] == 0, f"{words} in {place}: {answer}")
    setup = (work / "w/texts/.usfm_team/setup").read_bytes()
    tally.check(setup == b"project ../texts.project\n", f"a folder whose name has Windows' slash has its project beside it: {setup}")


def check_network(tally: Tally, program: Path, work: Path, share: Path) -> None:
    """A project, a folder of books and a box on a network's folder, which the books' folder remembers."""
    put_book(share / "texts")
    (share / "box").mkdir()
    place = "\\\\server\\share"
    begun = ["sync", f"{place}\\p", f"{place}\\texts", "--box", f"{place}\\box", "--remember"]
    for words in (["init", f"{place}\\p", "ana"], begun):
        answer = run(program, work, words)
        tally.check(answer[0] == 0, f"{words} on a network: {answer}")
    setup = (share / "texts/.usfm_team/setup").read_bytes()
    tally.check(setup == b"project //server/share/p\nbox //server/share/box\n", f"what a folder of a network remembers: {setup}")
    sent = (share / "box/ana.bundle").read_bytes()
    put_book(share / "texts", b"At")
    answer = run(program, work, ["sync", "//server/share/texts"])
    tally.check(answer[0] == 0 and (share / "box/ana.bundle").read_bytes() != sent, f"a sync of what it remembers: {answer}")
    # So a folder remembers a path of a network that one named from a network's folder.
    whole = run(program, work, ["send", "x/../\\\\server\\share/p"])
    tally.check(whole[0] == 0 and whole == run(program, work, ["send", f"{place}\\p"]), f"of a path counts what its last computer begins: {whole}")


def check_drives(tally: Tally, program: Path, work: Path, drive_c: Path) -> None:
    """`C:x` is in the current folder of the drive, which is its topmost one here, and `C:` alone is that folder."""
    (drive_c / "texts").mkdir()
    (drive_c / "texts/MAT.usfm").write_bytes(b"\\id MAT\n\\c 1\n\\v 1 In\n")
    for words in (["init", "C:p", "ana"], ["sync", "c:\\p", "C:texts", "--box", "C:"]):
        answer = run(program, work, words)
        tally.check(answer[0] == 0, f"{words} on a drive: {answer}")
    sent = run(program, work, ["send", "x/../C:/p"])
    tally.check(sent[0] == 0 and sent == run(program, work, ["send", "/c:/P"]), f"of a path counts what its last drive begins: {sent}")
    tally.check((drive_c / "ana.bundle").is_file(), f"a drive alone is a box: {sorted(it.name for it in drive_c.iterdir())}")


def check_long(tally: Tally, program: Path, work: Path) -> None:
    """A project, a box and a folder of books at the end of a long path."""
    end = work.joinpath(*LONG)
    (end / "texts").mkdir(parents=True)
    (end / "box").mkdir()
    (end / "texts/MAT.usfm").write_bytes(b"\\id MAT\r\n\\c 1\r\n\\v 1 In\r\n")
    way = "\\".join(LONG)
    for words in (["init", f"{way}\\p", "ana"], ["sync", f"{way}\\p", f"{way}\\texts", "--box", f"{way}\\box"]):
        answer = run(program, work, words)
        tally.check(answer[0] == 0, f"{words[0]} at a long path: {answer}")
    answer = run(program, work, ["edit", "/".join([*LONG, "p"]), "MAT 1:1"], b"\\v 1 At\n")
    tally.check(answer[0] == 0, f"edit at a long path: {answer}")
    answer = run(program, work, ["sync", f"{way}/p", f"{way}/texts", "--box", f"{way}/box"])
    tally.check(answer[0] == 0, f"sync once more at a long path: {answer}")
    text = (end / "texts/MAT.usfm").read_bytes()
    tally.check(text == b"\\id MAT\r\n\\c 1\r\n\\v 1 At\r\n", f"its lines end in CR LF still: {text}")
    tally.check(sorted(it.name for it in end.iterdir()) == ["box", "p", "texts"], f"nothing else is at a long path")
