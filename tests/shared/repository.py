"""The program of this repository, and the commands that its help lists."""
import argparse
import re
import subprocess
import sys
from functools import cache
from pathlib import Path

TOP = Path(__file__).resolve().parent.parent.parent


def program_of_repository() -> Path:
    """The program of this repository, which is built first if it is older than its sources."""
    if subprocess.run([TOP / "build"]).returncode != 0:
        sys.exit(2)
    return TOP / "crates/usfm_team/out/usfm_team"


@cache
def program_given() -> Path:
    """The program that the script's words `--program PATH` name, else the one of this repository."""
    parser = argparse.ArgumentParser(usage=f"{Path(sys.argv[0]).resolve().relative_to(TOP)} [--program PATH]")
    parser.add_argument("--program", type=Path, help="the program, else the one of this repository")
    return (parser.parse_args().program or program_of_repository()).resolve()


def commands_in(page: str) -> list[str]:
    """The commands that the program's page of help lists, `help` among them."""
    listed = page.split("Commands:")[1].split("Options:")[0]
    return re.findall(r"^  ([a-z-]+)  +[A-Z]", listed, re.M)
