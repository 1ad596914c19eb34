#!/usr/bin/env python3
"""completion.py [--write | --check]: docs/sdca.bash, the completion for bash.

It is made from the table of commands (sd_command_line, specs/Commands and specs/Operands, and of help and version
specs/Pages): the first word is a command, and a listing says what each does. Behind it the kind of each argument decides: names of files for an input or OUT, and
nothing for a number. Without an option it prints the script, --write writes it. --check compares the two, prints what
differs, and exits with 1 if something does."""

import difflib
import os
import re
import sys

TOP = os.path.dirname(os.path.dirname(os.path.realpath(__file__)))
COMMANDS = "crates/sd_command_line/specs/Commands.antt"
ARGUMENTS = "crates/sd_command_line/specs/Operands.antt"
PAGES = "crates/sd_command_line/specs/Pages.antt"
SCRIPT = "docs/sdca.bash"
# What stands for an argument of this kind: the name of a file, or a number.
KINDS = {"Input": "f", "Output": "f", "Number": "n", "Count": "n"}
TEXT = r"""# Completion for bash of sdca; ./install puts it under share/bash-completion/completions.
# Made by tools/completion.py --write from the table of commands.

# NAME: the kinds of its arguments, f for a file and n for a number, and what it does.
declare -gA _sdca_kinds=(
%s
) _sdca_work=(
%s
)

# TOPIC..: the commands and these words that begin as the word at the cursor. A listing says what each command does.
_sdca_names() {
    local name
    mapfile -t COMPREPLY < <(compgen -W "${!_sdca_kinds[*]} $*" -- "${COMP_WORDS[COMP_CWORD]}" | LC_ALL=C sort)
    # 63, 33 and 64: the words are listed, and none is put into the line
    if ((${#COMPREPLY[@]} > 1)) && [[ $COMP_TYPE == @(63|33|64) ]]; then
        for name in "${!COMPREPLY[@]}"; do
            printf -v "COMPREPLY[name]" '%%-9s %%s' "${COMPREPLY[name]}" "${_sdca_work[${COMPREPLY[name]}]}"
            COMPREPLY[name]=${COMPREPLY[name]:0:${COLUMNS:-80}-2}
        done
    fi
}

_sdca() {
    local place=$((COMP_CWORD - 2)) word
    COMPREPLY=()
    if ((COMP_CWORD == 1)); then
        _sdca_names help version
    elif [[ ${COMP_WORDS[1]} == @(help|--help|-h) ]]; then
        ((COMP_CWORD > 2)) || _sdca_names
    else
        # to bash a colon or an equals sign within a name is a word of its own, and ends one
        for word in "${COMP_WORDS[@]:2:COMP_CWORD-2}"; do
            [[ $word != [:=]* ]] || ((place -= 2))
        done
        # nothing for a number, nor behind the last argument
        word=${_sdca_kinds[${COMP_WORDS[1]:-help}]-}
        [[ ${word:place < 0 ? 0 : place:1} != f ]] || compopt -o default
    fi
}

complete -F _sdca sdca
"""


def read(path):
    with open(f"{TOP}/{path}", encoding="utf-8") as file:
        return file.read()


def equations(path, function, value):
    """Each constructor with the value that the function has of it, by the equations of a file of specs."""
    return dict(re.findall(rf"^{function} (\w+) =\s+{value}", read(path), re.M))


def quoted(text):
    """The text as a word of a shell."""
    return "'" + text.replace("'", "'\\''") + "'"


def script():
    """The script that is due."""
    kinds = equations(ARGUMENTS, "operand_kind", r"\(?kind\.(\w+)")
    names = equations(COMMANDS, "command_name", r'codes "(\w+)"$')
    rows = equations(COMMANDS, "operands_of", r"(.*) ∷ \[\]$")
    work = equations(COMMANDS, "work_of", r'codes "(.*)"$')
    topics = dict(re.findall(r'codes "  (help|version)\b.*?  +(\S.*)\\n"$', read(PAGES), re.M))
    if not names or not names.keys() == rows.keys() == work.keys():
        sys.exit(f"completion.py: {COMMANDS} has not the name, the arguments and the work of each command")
    places = {command: "".join(KINDS[kinds[it.strip().removeprefix("word.")]] for it in row.split("∷"))
              for command, row in rows.items()}
    done = {**{names[it]: work[it] for it in sorted(names, key=names.get)}, **topics}
    return TEXT % ("\n".join(f"    [{names[it]}]={places[it]}" for it in sorted(names, key=names.get)),
                   "\n".join(f"    [{name}]={quoted(text)}" for name, text in done.items()))


def main(arguments):
    due = script()
    if arguments == ["--write"]:
        with open(f"{TOP}/{SCRIPT}", "w", encoding="utf-8") as file:
            file.write(due)
        return 0
    if arguments == ["--check"]:
        there = read(SCRIPT) if os.path.exists(f"{TOP}/{SCRIPT}") else ""
        differ = list(difflib.unified_diff(there.splitlines(), due.splitlines(), SCRIPT, COMMANDS, n=0, lineterm=""))
        print("\n".join(differ) or f"completion.py: {SCRIPT} is that of the table of commands")
        return int(there != due)
    print(due, end="")
    return 0


if __name__ == "__main__":
    sys.exit(main(sys.argv[1:]))
