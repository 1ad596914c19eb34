#!/usr/bin/env python3
"""exits.py [--write]: the texts of the exits, and the arguments of the commands, are the same in all places that have
them.

The meaning of each exit has three places: help (sd_command_line, specs/Exits), the last column of the table in
docs/FORMATS.md, and the manual page docs/sdca.1. A cell of the table begins with the text that help prints of a
command with inputs and OUT; details may follow after a full stop. The manual page has that text as a sentence. What
help prints of other commands instead is quoted in docs/FORMATS.md. The printed lines have two places: `line_of` and
what it cites (sd_command_base, specs/Texts; EmmFaults and EcmFaults of sd_message), and the second column of the table.
Each printed text is in the table, and the table has no other text. The arguments of a command have two places: the
table of commands (sd_command_line, specs/Commands), and the comments of `Command` in src/command.rt, which the
launcher reads. The second lines, which explain exits on the standard error, are a table in docs/TROUBLESHOOTING.md:
--write makes it of the definitions (tools/second_lines.py). It prints what differs, and exits with 1 if something
does."""

import os
import re
import sys

sys.dont_write_bytecode = True
import second_lines  # noqa: E402

TOP = os.path.dirname(os.path.dirname(os.path.realpath(__file__)))
HELP = "crates/sd_command_line/specs/Exits.antt"
COMMANDS = "crates/sd_command_line/specs/Commands.antt"
ARGUMENTS = "crates/sd_command_line/specs/Operands.antt"
COMMENTS = "crates/sd_command_line/src/command.rt"
LINES = [
    "crates/sd_command_base/specs/Texts.antt",
    "crates/sd_message/specs/EmmFaults.antt",
    "crates/sd_message/specs/EcmFaults.antt",
]
TABLE = "docs/FORMATS.md"
MANUAL = "docs/sdca.1"
# The page with the second lines, and the marks between which they are.
READERS = "docs/TROUBLESHOOTING.md"
MADE = re.compile(r"(?<=<!-- made by tools/exits.py --write -->\n).*?(?=<!-- end -->\n)", re.S)
# What the table writes for a number, a digest or a text of another row.
VARIABLE = re.compile(r"\b(?:[A-Z]|FORM|CAUSE|FOUND|DUE)\b")


def read(path):
    with open(f"{TOP}/{path}", encoding="utf-8") as file:
        return file.read()


def of_help(files):
    """The text of each exit in help, by its number, for a command with these files."""
    lines = re.findall(rf'^exit_line (?:files|{files}) \w+ =\s+codes " *(\d+)  (.*)\\n"$', read(HELP), re.M)
    return {int(number): text for number, text in lines}


def of_other_commands():
    """What help prints of commands without OUT, or without an input, and docs/FORMATS.md doesn't quote."""
    page = " ".join(read(TABLE).split())
    whole = of_help("Both")
    for number, text in [*of_help("Inputs").items(), *of_help("Output").items()]:
        if text != whole.get(number) and f"`{text}`" not in page:
            yield f"{TABLE}: exit {number} of some commands is not quoted: {text}"


def rows():
    """The rows of the table of exits: a number, the printed texts, and when the program ends so."""
    part = read(TABLE).split("\n## Exits\n")[1].split("\n### ")[0]
    return [(int(n), texts, when) for n, texts, when in re.findall(r"^\| (\d+) \| (.*?) ?\| (.*) \|$", part, re.M)]


def of_manual():
    """The sentence of each exit in the manual page, without its macros, by its number."""
    part = read(MANUAL).split(".Sh EXIT STATUS\n")[1].split(".El\n")[0]
    found = {}
    for number, text in re.findall(r"^\.It (\d+)\n((?:(?!\.It ).*\n)+)", part, re.M):
        text = re.sub(r"^\.Ar (\w+)", lambda name: name[1].upper(), text, flags=re.M)
        text = re.sub(r"^\.(?:Ql|Cm) ", "", text, flags=re.M)
        found[int(number)] = re.sub(r" ([:;,.])(?=\s|$)", r"\1", " ".join(text.split()))
    return found


def arguments():
    """What differs between the arguments of the commands and the comments that say them."""
    words = dict(re.findall(r'^operand_name (\w+) = codes "(\w+)"$', read(ARGUMENTS), re.M))
    names = dict(re.findall(r'^command_name (\w+) = codes "(\w+)"$', read(COMMANDS), re.M))
    rows = dict(re.findall(r"^operands_of (\w+) = (.*) ∷ \[\]$", read(COMMANDS), re.M))
    said = re.findall(r"^    /// `([a-z]+ [A-Z ]+)`: ", read(COMMENTS), re.M)
    if len(said) != len(names) or len(rows) != len(names):
        yield f"{COMMENTS}: {len(said)} comments begin with the arguments of one of {len(names)} commands"
    for command, row in rows.items():
        line = " ".join([names[command], *(words[it.removeprefix("word.")] for it in row.split(" ∷ "))])
        if line not in said:
            yield f"{COMMENTS}: no comment begins with `{line}`"


def as_sentence(text):
    return text[0].upper() + text[1:] + "."


def meanings(table):
    """What differs between help, the table and the manual page."""
    help_texts, manual = of_help("Both"), of_manual()
    if len({*help_texts} | {*manual} | {n for n, _, _ in table}) != len(help_texts) or len(manual) != len(help_texts):
        yield "help, the table and the manual page have different exits"
    for number, _, when in table:
        text = help_texts.get(number, "")
        if when != text and not when.startswith(text + ". "):
            yield f"{TABLE}: exit {number} doesn't begin as help does: {text}"
    for number, text in help_texts.items():
        said = manual.get(number, "")
        if said.lower() != as_sentence(text).lower():
            yield f"{MANUAL}: exit {number} is not as in help: {said}"


def printed(table):
    """What differs between the printed lines and the table."""
    lines = "".join(map(read, LINES))
    literals = {text.replace("\\n", "").strip(" :") for text in re.findall(r'codes "([^"]*)"', lines)} - {""}
    quoted = re.findall(r"`([^`]*)`", " ".join(texts for _, texts, _ in table))
    causes = [text for _, _, when in table for text in re.findall(r"`([^`]*)`", when)]
    known = {piece.strip(" :") for text in quoted + causes for piece in VARIABLE.split(text)}
    pieces = known | {f"limit: {piece}" for piece in known}
    for text in sorted(literals - pieces):
        yield f"{TABLE}: no exit has the printed text: {text}"
    for text in sorted(known - literals - {""}):
        if f"limit: {text}" not in literals and text not in ("limit", "messages", "next", "tables"):
            yield f"{TABLE}: no line is printed with the text: {text}"


def explained():
    """What differs between the second lines and their table."""
    found = MADE.search(read(READERS))
    there, due = found[0].splitlines() if found else [], second_lines.markdown().splitlines()
    yield from (f"{READERS}: another row is due (tools/exits.py --write): {row}" for row in due if row not in there)
    yield from (f"{READERS}: no exit has this second line: {row}" for row in there if row not in due)
    if sorted(there) == sorted(due) and there != due:
        yield f"{READERS}: the rows have another order (tools/exits.py --write)"


def write():
    """Put the table of second lines into its page."""
    page = MADE.sub(lambda found: second_lines.markdown(), read(READERS))
    with open(f"{TOP}/{READERS}", "w", encoding="utf-8") as file:
        file.write(page)


def main():
    if sys.argv[1:] == ["--write"]:
        write()
    table = rows()
    differing = [*meanings(table), *of_other_commands(), *printed(table), *arguments(), *explained()]
    exits = len(of_help("Both"))
    print("\n".join(differing) or f"exits.py: the texts of {exits} exits and the arguments of commands agree")
    return 1 if differing else 0


sys.exit(main())
