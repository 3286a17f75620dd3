"""The faults of the code, and what the pages and the help say of each.

The table comes from the code itself: the variants of `Fault` in command_faults and of the faults inside it. A variant has its
number at the front of its comment, its details as its fields, and its sentence in `#[error]`.
"""
import re
import subprocess

from repository import commands_in, program_given
from tally import TOP, check, numbers_in, program, text_of

FAULT = "crates/command_faults/src/fault.rt"
# The faults that a variant of `Fault` may hold, and where they are.
INSIDE = {
    "RefFault": "crates/usfm_ref/src/fault.rt",
    "IdFault": "crates/op_core/src/fault.rt",
    "BundleFault": "crates/bundle_codec/src/fault.rt",
}
# The details of a variant, by its fields.
DETAILS = {"": [], "(OpId)": ["number", "name"], "(u64)": ["place"], "valid": ["length"], "line": ["line"], "gone": ["bytes"], "count": ["count"]}
# The commands of the program whose names are not those of the code's, or their first words.
COMMANDS = {"EditWith": "edit-over"}
# The words that the program, for readers who write no code, has for some of them.
SAID_DETAILS = {"length": "bytes"}
VARIANT = re.compile(r"((?:^    ///.*\n)+)    #\[error\(\"((?:[^\"\\]|\\.)+)\".*\)\]\n    (\w+)(.*),$", re.M)


def fields(text):
    """The details that the fields of a variant stand for, or the type of the fault inside it."""
    inside = re.fullmatch(r"\((\w+Fault)\)", text)
    if inside:
        return inside[1]
    named = re.fullmatch(r" \{ (\w+): \w+ \}", text)
    return DETAILS.get(named[1] if named else text)


def variants(path, name):
    """The variants of a fault, each with its comment, its sentence and its details."""
    body = re.search(rf"pub enum {name} \{{\n(.*?)^\}}", text_of(path), re.S | re.M)[1]
    found = [(it[3], it[1], it[2], fields(it[4])) for it in VARIANT.finditer(body)]
    check(len(found) == len(re.findall(r"^    \w+.*,$", body, re.M)), f"{path}: a variant of {name} has no comment or no sentence")
    return found


def numbers_of_code():
    """The number of each variant of `Fault`, and of those inside it, as `fault_line` writes it."""
    arms = re.findall(r"(\w+Fault|Fault)::(\w+)(?:\([_a-z]*\)| \{[^}]*\})?\)? => (\d+),", text_of("crates/command_faults/src/fault_lines.rt"))
    return {(kind, variant): int(number) for kind, variant, number in arms}


def table():
    """The faults by their numbers: the name, the sentence and the details of each."""
    numbers, found = numbers_of_code(), {}
    for name, comment, sentence, details in variants(FAULT, "Fault"):
        if isinstance(details, str):
            inner = variants(INSIDE[details], details)
            rows = [(numbers.get((details, it[0])), *it) for it in inner]
            # Out of memory is one fault, wherever it is met.
            rows = [it for it in rows if found.get(it[0], ("",))[0] != it[1]]
        else:
            rows = [(numbers.get(("Fault", name)), name, comment, sentence, details)]
        stated = numbers_in(re.search(r"/// ([^:]*):", comment)[1])
        has = {it[0] for it in rows}
        # The faults of a bundle are stated by their first and last number, and more may come between.
        check(stated >= has and {min(stated), max(stated)} <= has, f"{FAULT}: {name} states {sorted(stated)}, and fault_line has {has}")
        for number, name_inside, _, sentence_inside, its_details in rows:
            check(number is not None, f"fault_line has no number for {name}, {name_inside}")
            check(its_details is not None, f"{FAULT}: what are the details of {name_inside}?")
            check(number not in found, f"the number {number} is of two faults")
            found[number] = (name_inside, sentence_inside, its_details or [])
    check(len(found) > 30, "the faults were not read from the code")
    return found


def check_formats(code):
    rows = re.findall(r"^\| (\d+) \| (\w+) \| ([^|]*?) ?\| (.+?) \| (.+?) \|$", text_of("docs/FORMATS.md"), re.M)
    check({int(it[0]) for it in rows} == set(code), f"FORMATS.md and the code differ in the faults {sorted({int(it[0]) for it in rows} ^ set(code))}")
    for number, name, details, _, _ in rows:
        _, _, wanted = code.get(int(number), ("", "", []))
        check(details == ", ".join(wanted), f"FORMATS.md: the details of {number} are {wanted}")


def check_width(command, page):
    wide = [line for line in page.splitlines() if len(line) > 80]
    check(not wide, f"the help of {command} is wider than a terminal of 80 columns: {wide[:1]}")


def lines_of(page):
    """The lines of a page of help that have faults: the words of the faults, without what they mean."""
    return re.findall(r"^  (fault \d+.*?)(?:  |$)", page, re.M)


def check_help(code, pages):
    """Each fault is in the help of a command, with its details, and no other is."""
    named = set()
    for command, page in pages.items():
        check_width(command, page)
        for line in lines_of(page):
            numbers = numbers_in(line)
            named |= numbers
            written = re.findall(r"\b[A-Z]+\b", line)
            for number in numbers & set(code):
                wanted = [SAID_DETAILS.get(it, it).upper() for it in code[number][2]]
                shared = len(numbers) > 1 and not written
                check(written == wanted or shared, f"the help of {command}: the details of {number} are {wanted}")
    check(set(code) <= named, f"no page of help has the faults {sorted(set(code) - named)}")
    check(named - set(range(60, 71)) <= set(code), f"help has faults that the code has not: {sorted(named - set(code))}")


def errors_of(path, name):
    """What the comment of a call says of its errors."""
    comment = re.search(rf"((?:^ *///.*\n)+)(?:^ *#.*\n)*^ *pub fn {name}\b", text_of(path), re.M)[1]
    return re.sub(r"\n *///", "\n", "\n" + comment).split("# Errors")[1]


def numbers_said(text):
    """The numbers between brackets of a text such as `Bundle` (60 to 69), `Clash` (51)."""
    return set().union(*(numbers_in(it) for it in re.findall(r"\(([\d, to]+)\)", text)))


def faults_of_commands():
    """The faults of each command of a project, by its name in the code, as the comment of `exec` has them."""
    text = errors_of("crates/usfm_cli/src/projects.rt", "exec")
    found, before = {}, set()
    for names, said in re.findall(r"^ - ((?:`\w+`(?:, | and )?)+): (.*(?:\n   .*)*)", text, re.M):
        before = numbers_said(said) | (before if "the same" in said else set())
        found.update({it: before for it in re.findall(r"\w+", names.replace(" and ", " "))})
    silent = re.search(r"^ ((?:`\w+`(?:, | and )?)+) refuse nothing", text, re.M)[1]
    found.update({it: set() for it in re.findall(r"\w+", silent.replace(" and ", " "))})
    check(len(found) > 13, "the faults of the commands were not read from the code")
    return found


def check_commands(code, pages):
    """The help of a command has each fault that the command can meet, by the comments of the code."""
    of_commands = faults_of_commands()
    listed = {command: set().union(*map(numbers_in, lines_of(page))) for command, page in pages.items()}
    for command, page in pages.items():
        for others in re.findall(r"those of ((?:`[a-z-]+`(?:, | and )?)+)", page):
            listed[command] |= set().union(*(listed[it] for it in re.findall(r"`([a-z-]+)`", others)))
    wanted = {command: set() for command in pages}
    wanted["fold"] = numbers_said(errors_of("crates/usfm_cli/src/fold.rt", "fold_stream")) | {20}
    for variant, faults in of_commands.items():
        words = re.sub(r"(?<!^)([A-Z])", r"-\1", variant).lower()
        command = COMMANDS.get(variant) or (words if words in pages else words.split("-")[0])
        check(command in pages, f"the program has no command for {variant}")
        wanted.setdefault(command, set()).update(faults, {1, 90, 110, 120, 121}, range(60, 71))
    for command, faults in wanted.items():
        lacked = (faults & set(code)) - listed.get(command, set())
        check(not lacked, f"the help of {command} lacks the faults {sorted(lacked)}")


def pages_of_help():
    """The program's page of help, and that of each command."""
    found = {"usfm_team": program("--help")}
    found.update({it: program(it, "--help") for it in commands_in(found["usfm_team"]) if it != "help"})
    return found


def check_sentences(code):
    """The program lists each fault with its details and its sentences, and FORMATS has their first sentences from there."""
    listed = re.findall(r"^fault (\d+)((?: [A-Z]+)*)\n((?:  .+\n)+)", program("faults"), re.M)
    check([int(it[0]) for it in listed] == sorted(code), f"the program lists the faults {[it[0] for it in listed]}")
    for number, details, sentences in listed:
        wanted = [SAID_DETAILS.get(it, it).upper() for it in code.get(int(number), ("", "", []))[2]]
        check(details.split() == wanted, f"usfm_team faults: the details of {number} are {wanted}")
        check(len(sentences.splitlines()) > 1, f"usfm_team faults: {number} says what to do")
        check(all(len(it) <= 80 for it in sentences.splitlines()), f"usfm_team faults: {number} is wider than 80 columns")
    written = subprocess.run([TOP / "docs/faults", "--program", program_given(), "--check"], stdout=subprocess.PIPE, text=True, check=False)
    check(written.returncode == 0, f"docs/faults: {written.stdout}")


def check_faults():
    code, pages = table(), pages_of_help()
    check_sentences(code)
    check_formats(code)
    check_help(code, pages)
    check_commands(code, pages)
