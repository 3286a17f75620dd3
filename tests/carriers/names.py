"""The names that carriers leave in a box, each with a whole bundle, when a new copy syncs: what docs/CARRIERS.md says of them."""
from pathlib import Path

from stage import Tally, run, wanted

# They lie there in silence, and nothing of them comes in.
SILENT = [
    ".syncthing.ana.bundle.tmp",
    "~syncthing~ana.bundle.tmp",
    ".ana.bundle.Xa31bC",
    ".unison.ana.bundle.1234.unison.tmp",
    "ana.bundle.part",
    "ana.bundle.partial",
    "ana.tmp",
    ".fuse_hidden0000001",
    ".ana.bundle.new",
    "._ana.bundle",
    "desktop.ini",
    "Thumbs.db",
    "~ana.bundle",
    "~$ana.bundle",
    "ana.bundle.tmp",
    "notes.txt",
]
# They were meant as bundles, and are said.
MEANT = ["ana.bundle.1", "ana.bundle.zip", "ana (1).bundle.txt", "ana"]
FOLDERS = [".stfolder", ".stversions", ".git", "lost+found", "System Volume Information"]
# They come in as a bundle of their own.
TAKEN = ["ana.sync-conflict-20261129-101500-ABCDEFG.bundle", "ana (Ben's conflicted copy 2026-11-29).bundle", "ana (1).bundle"]


def check_names(tally: Tally, program: Path, home: Path, seed: int) -> None:
    home.mkdir()
    (home / "book").write_text("\\id MAT\n\\c 1\n\\v 1 In\n")
    wanted(run(program, home, ["init", "ana", "ana"]))
    wanted(run(program, home, ["import", "ana", "book"]))
    bundle = wanted(run(program, home, ["send", "ana"]))
    parts = {"half.bundle": bundle[: len(bundle) // 2], "empty.bundle": b"", "zeros.bundle": bytes(len(bundle))}
    faults = {"half.bundle": 61, "empty.bundle": 61, "zeros.bundle": 60}
    for number, names in enumerate([*([it] for it in SILENT + MEANT + TAKEN), FOLDERS, list(parts)]):
        place = home / str(number)
        (place / "texts").mkdir(parents=True)
        (place / "box").mkdir()
        for name in names:
            if name in FOLDERS:
                (place / "box" / name).mkdir()
            else:
                (place / "box" / name).write_bytes(parts.get(name, bundle))
        wanted(run(program, place, ["init", "p", "cy"]))
        answer = run(program, place, ["sync", "p", "texts", "--box", "box"])
        skipped = "".join(f"skipped box/{it} fault {faults[it]}\n" for it in sorted(parts) if it in names).encode()
        if names[0] in MEANT:
            skipped = f"skipped box/{names[0]}: the name of a bundle ends in .bundle\n".encode()
        lines = "came MAT 0 ana\ncame MAT 1 ana\ncame MAT 1:1 ana\n"
        came = f"new 3 box/{names[0]}\n{lines}wrote texts/MAT.usfm\n".encode() if names[0] in TAKEN else b""
        tally.check((answer.status, answer.output, answer.error) == (0, came, skipped), f"{names} in a box: {answer}")
