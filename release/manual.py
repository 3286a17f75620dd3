#!/usr/bin/env python3
"""Writes the man page usfm_team.1 to standard output, made from what the program prints as help.

    release/manual.py PROGRAM

It has every line of the help. Its date is that of the program's version in CHANGES.md.
"""
import sys

sys.dont_write_bytecode = True

import re
import subprocess
from pathlib import Path

from sources import version_of, versions

# A row of a table of the help: what stands in it, and after two spaces or more what that means.
ROW = re.compile(r"^ +(\S+(?: \S+)*)  +(\S.*)$")
SIGNS = {"\\": r"\e", "-": r"\-", "'": r"\(aq", "`": r"\(ga", "^": r"\(ha", "~": r"\(ti", '"': r"\(dq"}


def plain(text: str) -> str:
    """A text as it stands: no sign of it is one of roff's."""
    return "".join(SIGNS.get(sign, sign) for sign in text)


def sentence(line: str) -> str:
    """A line of prose, in which bold stands for what is between backticks."""
    parts = line.split("`")
    return "".join(rf"\fB{plain(part)}\fR" if at % 2 else plain(part) for at, part in enumerate(parts))


def at_line(text: str) -> str:
    """A text of roff where a line begins, where no sign of it is a request."""
    return rf"\&{text}" if text.startswith(".") else text


def usage(line: str) -> str:
    """A line of usage: commands are bold, and what is to be given in their place is slanted."""
    return re.sub(r"[A-Z]{2,}|[a-z_-]{2,}", lambda it: rf"\f{'I' if it[0].isupper() else 'B'}{plain(it[0])}\fR", line)


def paragraphs(text: str) -> list[list[str]]:
    """The paragraphs of a text, which empty lines part."""
    return [part.splitlines() for part in re.split(r"\n\n+", text.strip("\n"))]


def indent(line: str) -> int:
    """How many spaces a line begins with."""
    return len(line) - len(line.lstrip(" "))


def block(lines: list[str]) -> list[str]:
    """The lines of a paragraph as roff: rows of a table, lines as they stand, which are indented, and prose.

    A line that begins where a table says what its rows mean goes on with that; the line before the first such line of a row that has no
    meaning beside it is what stands in the row. Where no row has one beside it, the meanings are the lines that are indented most.
    """
    made, literal, is_table = [], False, False
    rows = [row for row in map(ROW.match, lines) if row]
    widest = max((len(row[1]) for row in rows), default=0)
    indents = {indent(line) for line in lines if line.startswith(" ")}
    column = min((row.start(2) for row in rows), default=max(indents) if len(indents) > 1 else None)
    for line, later in zip(lines, [*lines[1:], ""]):
        row = ROW.match(line)
        goes_on = not row and indent(line) == column
        is_alone = not row and not goes_on and line.startswith(" ") and bool(later) and indent(later) == column
        stands = line.startswith(" ") and not (row or goes_on or is_alone)
        if stands != literal:
            made.append(".RS 4\n.EX" if stands else ".EE\n.RE")
            literal = stands
        if row or is_alone:
            made += [".PD 0"] * (not is_table)
            is_table = True
            made += [f".TP {widest + 3}", at_line(rf"\fB{plain(row[1] if row else line.strip())}\fR")]
            made += [at_line(sentence(row[2]))] if row else []
        elif goes_on:
            made.append(at_line(sentence(line.strip())))
        elif stands:
            made.append(at_line(plain(line.strip())))
        elif line.startswith("Example: "):
            made += ["Example:", ".RS 4\n.EX", at_line(plain(line.removeprefix("Example: "))), ".EE\n.RE"]
        else:
            # What follows a list is a paragraph of its own, and not the end of its last item.
            made += [".PD", ".PP"] * is_table
            is_table = False
            made.append(at_line(sentence(line)))
    return made + [".EE\n.RE"] * literal + [".PD"] * is_table


def page_of(program: Path, *words: str) -> tuple[str, list[str], list[list[str]]]:
    """What a page of help says first, its lines of usage, and its other paragraphs."""
    said = subprocess.run([program, *words, "--help"], stdout=subprocess.PIPE, text=True, check=True).stdout
    about, used, *more = paragraphs(said)
    return about[0], [line.removeprefix("Usage: ").strip() for line in used], more


def tables(more: list[list[str]], name: str) -> tuple[list[str], list[list[str]]]:
    """The rows of the paragraph that begins with a name, and the other paragraphs."""
    rows = [line for lines in more if lines[0] == name for line in lines[1:]]
    return rows, [lines for lines in more if lines[0] != name]


def command(program: Path, name: str) -> list[str]:
    """The section of one command."""
    about, (used, *others), more = page_of(program, name)
    made = [f".SS {plain(used.removeprefix('usfm_team '))}", at_line(sentence(about)) + "."]
    for line in others:
        made += [".PP", "Or:", ".RS 4\n.EX", at_line(plain(line)), ".EE\n.RE"]
    for table in ("Arguments:", "Options:"):
        rows, more = tables(more, table)
        made += block([line for line in rows if "--help" not in line])
    for lines in more:
        made += [".PP", *block(lines)]
    return made


def listed_commands(program: Path) -> list[str]:
    """The commands that the program lists, but for that which shows the help of the others."""
    rows, _ = tables(page_of(program)[2], "Commands:")
    return [row[1] for row in map(ROW.match, rows) if row[1] != "help"]


def manual(program: Path) -> str:
    """The whole page."""
    version = version_of(program)
    about, (used, *_), more = page_of(program)
    _, more = tables(more, "Commands:")
    options, more = tables(more, "Options:")
    made = [f'.TH USFM_TEAM 1 {versions()[version][0]} "usfm_team {version}" "User Commands"']
    made += [".SH NAME", rf"usfm_team \- {plain(about[0].lower() + about[1:].rstrip('.'))}"]
    made += [".SH SYNOPSIS", usage(used.replace("<", "").replace(">", ""))]
    made += [".SH DESCRIPTION", at_line(sentence(about))]
    for lines in more:
        made += [".PP", *block(lines)]
    made += [".SH OPTIONS", *block(options), ".SH COMMANDS"]
    for name in listed_commands(program):
        made += command(program, name)
    return "\n".join(made) + "\n"


if __name__ == "__main__":
    if len(sys.argv) != 2 or not Path(sys.argv[1]).is_file():
        sys.exit("usage: release/manual.py PROGRAM, a program that is there")
    sys.stdout.write(manual(Path(sys.argv[1])))
