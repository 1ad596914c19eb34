#!/usr/bin/env python3
"""picture.py [--write | --check]: the picture of all crates in docs/ARCHITECTURE.md.

An arrow goes from a crate to one that it names in crates.txt. Arrows that follow from others are left out, and so are
crates that aren't this repository's. Below a crate's name are the first words of its lib.rt's (or main.rt's) `//!`
comment. Without an option it prints the picture, --write puts it into the page. --check compares the two, prints what
differs, and its last line is `N passed, M failed`."""

import difflib
import os
import re
import sys

TOP = os.path.dirname(os.path.dirname(os.path.realpath(__file__)))
PAGE = f"{TOP}/docs/ARCHITECTURE.md"
HEAD = "## All crates in a picture\n"
BLOCK = re.compile(r"```mermaid\n.*?```\n", re.S)
MOST_WORDS = 8
# A label that is cut off doesn't end with one of these.
SMALL = set("a after an and are as at be by come done driven each for from in is it its may of on one or over run that "
            "the to what which".split())
# Where a label ends.
STOP = re.compile(r"[:;.]|, (?=(?:and|by|each|for|in|of|that|what|which|with)\b)")


def read(path):
    with open(path, encoding="utf-8") as file:
        return file.read()


def crates():
    """Each crate with the crates of this repository that it names, in the order of crates.txt."""
    lines = (line.split(":") for line in read(f"{TOP}/crates.txt").splitlines() if line and line[0] != "#")
    named = {name: below.split() for name, below in lines}
    return {name: [it for it in below if it in named] for name, below in named.items()}


def reached(named, name):
    """All crates below this one."""
    found, left = set(), list(named[name])
    while left:
        crate = left.pop()
        if crate not in found:
            found.add(crate)
            left += named[crate]
    return found


def label(name):
    """The first words of the crate's comment, up to a stop, and at most MOST_WORDS."""
    folder = f"{TOP}/crates/{name}/src"
    path = next(p for p in (f"{folder}/lib.rt", f"{folder}/main.rt") if os.path.exists(p))
    text = " ".join(re.findall(r"^//! ?(.*)$", read(path), re.M))
    text = re.sub(rf"^`{name}`: ", "", text).replace("`", "").replace('"', "'")
    words = STOP.split(text)[0].split()
    short = words[:MOST_WORDS]
    while len(words) > MOST_WORDS and len(short) > 1 and short[-1].strip(",").lower() in SMALL:
        short.pop()
    text = " ".join(short).rstrip(",")
    return text[:1].upper() + text[1:]


def picture():
    """The picture as a block of Markdown."""
    named = crates()
    lines = [f'    {name}["{name}<br/>{label(name)}"]' for name in named]
    for name, below in named.items():
        follows = {it for crate in below for it in reached(named, crate)}
        arrows = [crate for crate in dict.fromkeys(below) if crate not in follows]
        if arrows:
            lines.append(f"    {name} --> {' & '.join(arrows)}")
    return "\n".join(["```mermaid", "flowchart TD", *lines, "```", ""])


def of_page():
    """The page before its picture, the picture, and the page after it."""
    before, head, rest = read(PAGE).partition(HEAD)
    found = BLOCK.search(rest)
    if not found:
        sys.exit(f"docs/ARCHITECTURE.md has no picture below {HEAD.strip()!r}")
    return before + head + rest[: found.start()], found[0], rest[found.end() :]


def differences():
    """The lines in which the page's picture differs from the one that is due."""
    old, new = of_page()[1].splitlines(), picture().splitlines()
    return list(difflib.unified_diff(old, new, "docs/ARCHITECTURE.md", "crates.txt", n=0, lineterm=""))


def main(arguments):
    if arguments == ["--write"]:
        before, _, after = of_page()
        with open(PAGE, "w", encoding="utf-8") as file:
            file.write(before + picture() + after)
        return 0
    if arguments == ["--check"]:
        differ = differences()
        print("\n".join([*differ, f"{int(not differ)} passed, {int(bool(differ))} failed"]))
        return int(bool(differ))
    print(picture(), end="")
    return 0


if __name__ == "__main__":
    sys.exit(main(sys.argv[1:]))
