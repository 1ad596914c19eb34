#!/usr/bin/env python3
"""trust.py [--write | --check | --why NAME]: every definition that the claims of PARTS rest on.

Who trusts the checker still has to read what it checked: the clauses, and each definition that they cite, down to the
words of the toolchain. Names are followed through the `use` lines of each file: to definitions in specs/, and by way of
`declared` to the types, constants and traits in src/. Proofs are not followed, since the checker reads them. A name
that a variable hides counts as cited, so the list may be too long and is never too short.

The page comes in parts, one for each kind of claim: its clauses, and the definitions that no part before has. So a
reader can stop after any of them.

Without an option it prints how much there is to read. --write writes docs/TRUST.md below the line of its mark, and
leaves what is above it as it is. --check compares, prints what differs, and exits with 1 if something does. --why
prints one chain of citations from a claim to NAME."""

import difflib
import hashlib
import os
import re
import sys
import textwrap
from collections import defaultdict

TOP = os.path.dirname(os.path.dirname(os.path.realpath(__file__)))
PAGE = f"{TOP}/docs/TRUST.md"
MARK = "<!-- From here on tools/trust.py writes this page. -->\n"
# The parts of the page: a head, what is claimed, and the laws with those of their clauses that say it, or all.
PARTS = [
    (
        "The headline and losses",
        "What `head`, `card` and `receive` do of good files, and `receive` of a broadcast of which packets are lost.",
        ["sd_law_run::run.head,card,receive,lost"],
    ),
    (
        "Answers and files",
        "What holds of any run: what a refusal before the work says, and which files change.",
        ["sd_law_run::run.refused,made,files"],
    ),
    (
        "Several broadcasts",
        "What colluding cards know of all broadcasts of a master, under which keystreams texts lie, and what is hashed.",
        [
            "sd_law_broadcast::periods_known",
            "sd_law_broadcast::words_known",
            "sd_law_broadcast::the_revoked_know_nothing",
            "sd_law_broadcast::who_is_entitled_knows",
            "sd_law_broadcast::texts_lie_under_their_keystreams",
            "sd_law_broadcast::a_broadcast_repeats_no_keystream",
            "sd_law_broadcast::broadcasts_repeat_no_keystream",
            "sd_law_broadcast::what_is_sent_is_used",
            "sd_law_keys::wraps_are_steps",
            "sd_law_keys::inputs_are_hashed",
            "sd_law_keys::inputs_differ",
        ],
    ),
    (
        "Interleavings",
        "What receivers write that are switched off and on, over any order of events.",
        [
            "sd_law_field::one_packet_for_a_place",
            "sd_law_field::written_packets_are_confirmed",
            "sd_law_field::no_two_receivers_differ",
            "sd_law_field::every_choice_is_reached",
            "sd_law_field::what_was_sent_stays",
            "sd_law_covers::kept_is_as_fresh",
        ],
    ),
    (
        "Chains of sites",
        "That a card which a `next` revokes stays out of the broadcasts of a chain, and what `next` and `twin` make of it.",
        [
            "sd_law_chain::cut_off_cards_stay_out",
            "sd_law_chain::chains_with_books_are_kept",
            "sd_law_chain::calls_make_the_next_site",
            "sd_law_chain::heads_take_the_book_of_the_site",
        ],
    ),
    (
        "Damaged streams",
        "What `watch` does of any stream, that what doesn't count is as if it were lost, and that damage stays where it is.",
        [
            "sd_law_run::watch.goes_on,watched",
            "sd_law_watch::losses_of_runs_are_watched",
            "sd_law_watch::what_is_refused_is_lost",
            "sd_law_watch::copies_change_nothing",
            "sd_law_contained::others_change_nothing",
            "sd_law_contained::damage_is_contained",
            "sd_law_contained::changes_stay_in_their_packets",
            "sd_law_formats::packets_are_found",
        ],
    ),
    (
        "On air",
        "What `air` does of any clear stream: which packets it sends, that it uses a site once, and what boxes make of it.",
        [
            "sd_law_run::air",
            "sd_law_run::a_site_is_sent_once",
            "sd_law_air::aired_streams_are_sendable",
            "sd_law_air::clear_streams_are_aired_whole",
            "sd_law_air::what_is_left_out_is_as_if_not_there",
            "sd_law_air::the_end_comes_of_a_packet_that_would_be_sent",
            "sd_law_air::what_was_read_decides",
            "sd_law_air::each_packet_is_counted",
        ],
    ),
    (
        "Any stream",
        "What a receiver writes of a stream that nobody vouches for.",
        ["sd_law_keys::written_packets_are_named"],
    ),
    (
        "Every command",
        "What each command does and answers, whatever its arguments and files: a definition for each (`meaning`).",
        ["sd_run::run.value,ports,cause,words,usage,complete", "sd_law_run::run.done"],
    ),
]
# The sources that comments name in brackets.
SOURCES = ["ISO/IEC 13818-1", "Naor, Naor, Lotspiech", "FIPS 180-4", "this project"]

NAME = r"[A-Za-z_][\w'-]*"
CITED = re.compile(rf"(?<![\w'.]){NAME}(?:\.{NAME})*")
USE = re.compile(r"^\s*(?:pub )?(?:ghost )?use Rattle\.([\w.◌]+?)(?:\.\{([^}]*)\})?(?: as (\w+))?;?$", re.M)
RUST_USE = re.compile(r"^\s*(?:pub )?use (\w+)((?:::\w+)*)(?:::(\w+)|::\{([^}]*)\});$", re.M)
SPEC_HEAD = re.compile(
    rf"^(?:(?:abbrev|unfoldable)\s+(?:pub\s+)?|(?:pub\s+)?(?:record|data)\s+|pub\s+(?!mod|use))(◌\S+|{NAME})", re.M
)
SOURCE_HEAD = re.compile(
    r"^(?:pub(?:\(\w+\))?\s+)?(struct|enum|trait|const)\s+(\w+)|^(impl)(?:<.*>)?\s+Model\s+for\s+(\w+)", re.M
)
VARIANT = re.compile(r"^(\s+)[A-Z]\w*(?=\s*[,({])", re.M)
FUNCTION = re.compile(r"^pub fn (\w+)", re.M)
CLAUSE = re.compile(r"\b(?:requires|ensures)\b\s*(\w*)\s*\{")


def bare(text, comment):
    """The text with blanks for comments and for what strings hold; each character stays in its place."""
    skipped = re.compile(rf'"(?:\\.|[^"\\\n])*"|(?:^|(?<=[\s(])){comment}[^\n]*', re.M)

    def blanks(found):
        length = len(found[0])
        return f'"{" " * (length - 2)}"' if found[0].startswith('"') else " " * length

    return skipped.sub(blanks, text)


def block(text, start):
    """The index after the brace that closes the first one from `start` on; or after a `;` that comes before any."""
    depth = 0
    for at in range(start, len(text)):
        if text[at] == ";" and depth == 0:
            return at + 1
        depth += {"{": 1, "}": -1}.get(text[at], 0)
        if text[at] == "}" and depth == 0:
            return at + 1
    return len(text)


class Item:
    """A definition, type, constant, trait or function: where it is, its text, and the part of it that cites."""

    def __init__(self, file, name, first, text, cites):
        self.file, self.name, self.first = file, name, first
        self.text, self.cites = text.strip("\n"), cites
        mark = "--" if file.path.endswith(".antt") else "//"
        kept = [line for line in self.text.split("\n") if line.strip() and not line.strip().startswith(mark)]
        self.lines, self.claim = len(kept), re.sub(r"\s+", " ", " ".join(kept))
        comments = [line.strip() for line in self.text.split("\n") if line.strip().startswith(mark)]
        comments = " ".join(line.lstrip("-/ ") for line in comments)
        self.sources = [source for source in SOURCES if re.search(rf"\[[^\]]*{source}", comments)]


class File:
    """A file of specs/ or src/: the names that its `use` lines bring in, and its items by their names."""

    def __init__(self, crate, path):
        self.crate, self.path = crate, path
        with open(f"{TOP}/crates/{path}", encoding="utf-8") as file:
            self.text = file.read()
        self.is_spec = path.endswith(".antt")
        self.bare = bare(self.text, "--" if self.is_spec else "//")
        self.names, self.aliases, self.items = {}, {}, {}
        for module, braces, alias in USE.findall(self.bare):
            parts = tuple(module.split("."))
            for part in filter(None, (it.strip() for it in braces.split(","))):
                name, _, local = part.partition(" as ")
                self.names[local.strip() or name] = (parts, name)
            if not braces:
                self.aliases[alias or parts[-1]] = parts
                self.names[alias or parts[-1]] = (parts[:-1], parts[-1])
        if self.is_spec:
            self.read_definitions()
        else:
            self.read_sources()

    def add(self, name, start, end, cites):
        """An item with the comment lines right before it."""
        lines = self.text.split("\n")
        first = last = self.bare.count("\n", 0, start)
        while first and re.match(r"\s*(--|//|#\[|infix)", lines[first - 1]):
            first -= 1
        last = self.bare.count("\n", 0, end) + (0 if self.bare[end - 1 : end] == "\n" else 1)
        text = re.sub(r"(\n *(--[^\n]*|infix[^\n]*)?)*$", "", "\n".join(lines[first:last]))
        self.items[name] = Item(self, name, first + 1, text, cites)

    def read_definitions(self):
        heads = list(SPEC_HEAD.finditer(self.bare))
        for head, end in zip(heads, [*(it.start() for it in heads[1:]), len(self.bare)]):
            text = re.sub(r"\n\s*infix[^\n]*\s*$", "", self.bare[head.start() : end])
            self.add(head[1], head.start(), end, text[head.end() - head.start() :])
            if re.match(r"(pub )?data", text):
                for maker in re.findall(rf"^\s+({NAME})\s*:", text, re.M):
                    self.items.setdefault(maker, self.items[head[1]])

    def read_sources(self):
        for crate, middle, one, several in RUST_USE.findall(self.bare):
            owner = self.crate if crate in ("crate", "super", "self") else crate
            for name in re.findall(r"\w+", one or several):
                self.names.setdefault(name, ((owner, "src"), name))
        for head in SOURCE_HEAD.finditer(self.bare):
            end = block(self.bare, head.end())
            name = f"impl {head[4]}" if head[3] else head[2]
            cites = self.bare[head.end() : end]
            # (the names of an enum's variants cite nothing)
            self.add(name, head.start(), end, VARIANT.sub(r"\1", cites) if head[1] == "enum" else cites)

    def clauses(self, function, wanted):
        """The item of a function with these of its clauses, or all: its signature and clauses, and no body."""
        head = next(it for it in FUNCTION.finditer(self.bare) if it[1] == function)
        end = first = self.bare.find("{", head.end())
        parts = []
        for found in CLAUSE.finditer(self.bare, head.end()):
            if self.bare[end:found.start()].strip() and parts or not parts and found.start() > first:
                break
            end = block(self.bare, found.end() - 1)
            parts.append((found[1], found.start(), end))
        missing = set(wanted) - {name for name, _, _ in parts}
        if missing:
            sys.exit(f"trust.py: {function} has no clause {', '.join(missing)}")
        kept = [(start, stop) for name, start, stop in parts if not wanted or name in wanted]
        # (a comment between the signature and the first clause is of that clause)
        stop = parts[0][1]
        if kept[0][0] != stop:
            stop = head.start() + len(self.bare[head.start() : stop].rstrip())
        shown, cites = (
            "\n".join([text[head.start() : stop].rstrip(), *(f"    {text[start:end]}" for start, end in kept)])
            for text in (self.text, self.bare)
        )
        self.add(f"fn {function}", head.start(), head.end(), cites)
        item = self.items[f"fn {function}"]
        before, _, _ = item.text.partition(f"pub fn {function}")
        return Item(self, item.name, item.first, before + shown, cites)

    def used_names(self, items):
        """The names of other files that these items use, and what they are there."""
        found = [(local, parts, name) for local, (parts, name) in self.names.items() if "◌" not in local]
        return [it for it in found if any(re.search(rf"(?<![\w'.]){re.escape(it[0])}\b", item.cites) for item in items)]

    def renamed(self, items, doubled):
        """A line for each name that these items use and that is another one where it is defined, or is one of the names
        that are several things on the page."""
        used = [it for it in self.used_names(items) if it[0] != it[2] or it[0] in doubled]
        return [f"-- here {local} is {'.'.join([*parts, name])}" for local, parts, name in sorted(used)]


class Repository:
    """The files of all crates, read as they are needed."""

    def __init__(self):
        self.specs, self.sources = {}, {}
        self.crates = set(os.listdir(f"{TOP}/crates"))
        with open(f"{TOP}/crates.txt", encoding="utf-8") as file:
            rows = [line.partition("#")[0].partition(":") for line in file]
        self.below = {name.split()[0]: deps.split() for name, colon, deps in rows if colon}

    def height(self, crate):
        return 1 + max((self.height(low) for low in self.below.get(crate, []) if low in self.crates), default=0)

    def spec(self, crate, parts):
        path = f"{crate}/specs/{'/'.join(parts)}.antt"
        if path not in self.specs:
            there = os.path.isfile(f"{TOP}/crates/{path}")
            self.specs[path] = File(crate, path) if there else None
        return self.specs[path]

    def source(self, crate):
        if crate not in self.sources:
            found = []
            for folder, _, names in os.walk(f"{TOP}/crates/{crate}/src"):
                found += [f"{folder}/{name}" for name in names if name.endswith(".rt")]
            self.sources[crate] = [File(crate, os.path.relpath(path, f"{TOP}/crates")) for path in sorted(found)]
        return self.sources[crate]

    def of_source(self, crate, name):
        return next((file.items[name] for file in self.source(crate) if name in file.items), None)

    def find(self, parts, name):
        """What a name of a module is: an item, a word of the toolchain, or nothing."""
        crate, rest = parts[0], list(parts[1:])
        if crate not in self.crates:
            return (".".join(parts), name)
        if rest[:1] == ["src"]:
            return self.of_source(crate, name)
        if rest[:2] == ["specs", "declared"]:
            owner = {"TheVariants": rest[-2], "TheConstants": name}.get(rest[-1], rest[-1])
            return self.of_source(crate, owner) or self.of_source(crate, name)
        if rest[:1] != ["specs"]:
            return None
        file = self.spec(crate, rest[1:])
        if file is None:
            return None
        if name in file.items:
            return file.items[name]
        return self.find(*file.names[name]) if name in file.names else None

    def cited(self, item):
        """All that an item's text names."""
        file, found = item.file, []
        for use in CITED.finditer(item.cites):
            first, *fields = use[0].split(".")
            after = item.cites[use.end() : use.end() + 3].lstrip()
            if fields and first in file.aliases:
                found.append(self.find(file.aliases[first], fields[0]))
            elif first in file.items and not after.startswith(":"):
                found.append(file.items[first])
            elif first in file.names and not after.startswith(":"):
                found.append(self.find(*file.names[first]))
            elif not file.is_spec and first[0].isupper():
                found.append(self.of_source(file.crate, first))
        for name in [*file.names, *file.items]:
            marks = [part for part in name.split("◌") if part]
            if "◌" in name and (all(part in item.cites for part in marks) or ">>=" in marks and " do\n" in item.cites):
                found.append(file.items.get(name) or self.find(*file.names[name]))
        if not file.is_spec:
            found.append(file.items.get(f"impl {item.name}"))
        return [it for it in found if it is not None and it is not item]


def law(repository, words):
    """The item of a law with the clauses that are named after it, or all."""
    name, _, clauses = words.partition(".")
    crate, function = name.split("::")
    files = [it for it in repository.source(crate) if re.search(rf"^pub fn {function}\b", it.bare, re.M)]
    return files[0].clauses(function, [it for it in clauses.split(",") if it])


def reached(repository, roots):
    """The items under these laws, each with one that cites it, and the words of the toolchain by their modules."""
    parents, words, waiting = {root: None for root in roots}, defaultdict(set), list(roots)
    while waiting:
        item = waiting.pop(0)
        for found in repository.cited(item):
            if isinstance(found, tuple):
                words[found[0]].add(found[1])
            elif found not in parents:
                parents[found] = item
                waiting.append(found)
    return parents, words


def reading_order(repository, items):
    """The items by their files: lower crates first, and in a crate no file before those that it needs."""
    by_file = defaultdict(list)
    for item in items:
        by_file[item.file].append(item)
    done = {}

    def visit(file, trail):
        if file in done or file in trail:
            return
        needs = {it.file for item in by_file[file] for it in repository.cited(item) if isinstance(it, Item)}
        for low in sorted(needs, key=lambda it: it.path):
            if low.crate == file.crate and low in by_file:
                visit(low, [*trail, file])
        done[file] = sorted(by_file[file], key=lambda it: it.first)

    for file in sorted(by_file, key=lambda it: (repository.height(it.crate), it.path)):
        visit(file, [])
    return done


def purpose(crate):
    with open(f"{TOP}/crates/{crate}/src/lib.rt", encoding="utf-8") as file:
        return textwrap.fill(" ".join(line[3:].strip() for line in file if line.startswith("//!")), 120)


def summary(items):
    specs = [item for item in items if item.file.is_spec]
    others = [item for item in items if not item.file.is_spec]
    files, crates = {it.file for it in items}, {it.file.crate for it in items}
    return (
        f"{len(specs)} definitions of {sum(it.lines for it in specs)} lines in specs/, and {len(others)} types, "
        f"constants and traits of {sum(it.lines for it in others)} lines in src/, in {len(files)} files of "
        f"{len(crates)} crates"
    )


def doubled_names(repository, items):
    """The names that are several things on the page: in files that use them, or where they are defined."""
    meant = defaultdict(set)
    for file in {it.file for it in items}:
        own = [it for it in items if it.file is file]
        for local, parts, name in file.used_names(own):
            found = repository.find(parts, name)
            meant[local].add(found if found is not None else (parts, name))
        for item in own:
            meant[item.name].add(item)
    return {name for name, things in meant.items() if len(things) > 1}


def sum_of(items, doubled):
    """One sum over what all of them say, and the names that they use for others, without comments and layout."""
    texts = [f"{item.file.path} {item.claim}" for item in items]
    for file in {item.file for item in items}:
        own = [item for item in items if item.file is file]
        texts += [f"{file.path} {line}" for line in file.renamed(own, doubled)]
    return hashlib.sha256("\n".join(sorted(texts)).encode()).hexdigest()


def joined(lines):
    """The lines as one text, or none."""
    return ["\n".join(lines)] if lines else []


def fenced(head, texts):
    return ["", head, "", "```antt", "\n\n".join(texts), "```"]


def part(repository, title, claim, roots, items, doubled):
    """A part of the page: the clauses, and these definitions by their crates."""
    added = textwrap.fill(f"{summary(items)} that no part before has.", 120)
    lines = ["", f"## {title}", "", claim, "", added]
    for root in roots:
        lines += fenced(f"`{root.file.path}`:", [*joined(root.file.renamed([root], doubled)), root.text])
    crate = None
    for file, own in reading_order(repository, items).items():
        if file.crate != crate:
            crate = file.crate
            lines += ["", f"### {crate}", "", purpose(crate)]
        lines += fenced(f"`{file.path}`:", [*joined(file.renamed(own, doubled)), *(item.text for item in own)])
    return lines


def page(repository, parts, parents, words):
    """The part of docs/TRUST.md that this script writes."""
    roots = [root for _, _, own in parts for root in own]
    items = [item for item in parents if item not in roots]
    doubled = doubled_names(repository, list(parents))
    cited = sum(map(len, words.values()))
    lines = ["", textwrap.fill(f"{summary(items)}. They cite {cited} words of the toolchain.", 120)]
    lines += ["", f"Their sum is `{sum_of(parents, doubled)}`."]
    shown = set()
    for title, claim, own in parts:
        new = [item for item in reached(repository, own)[0] if item not in roots and item not in shown]
        lines += part(repository, title, claim, own, new, doubled)
        shown.update(new)
    lines += ["", "## Words of the toolchain", ""]
    lines += [f"- `{module}`: {' '.join(f'`{word}`' for word in sorted(words[module]))}" for module in sorted(words)]
    lines += ["", "## Sources", "", "| Source that the comment names | Definitions |", "|---|---|"]
    lines += [f"| {source} | {sum(source in item.sources for item in items)} |" for source in SOURCES]
    lines += [f"| none | {sum(not item.sources for item in items)} |", ""]
    return "\n".join(lines)


def compare(old, new):
    changes = list(difflib.unified_diff(old.split("\n"), new.split("\n"), "docs/TRUST.md", "now", n=1, lineterm=""))
    print("\n".join(changes[:60]) or "docs/TRUST.md is what the claims rest on")
    return bool(changes)


def main(options):
    if options not in ([], ["--write"], ["--check"]) and (options[0], len(options)) != ("--why", 2):
        print(__doc__)
        return 2
    repository = Repository()
    parts = [(title, claim, [law(repository, it) for it in laws]) for title, claim, laws in PARTS]
    parents, words = reached(repository, [root for _, _, own in parts for root in own])
    if options[:1] == ["--why"]:
        item = next((it for it in parents if it.name == options[1]), None)
        if item is None:
            sys.exit(f"trust.py: no claim rests on {options[1]}")
        while item is not None:
            print(f"{item.name}  {item.file.path}:{item.first}")
            item = parents[item]
        return 0
    new = page(repository, parts, parents, words)
    with open(PAGE, encoding="utf-8") as file:
        head, mark, old = file.read().partition(MARK)
    if options == ["--check"]:
        return compare(old, new)
    if options == ["--write"]:
        with open(PAGE, "w", encoding="utf-8") as file:
            file.write(head + mark + new)
    print(summary(list(parents)))
    return 0


if __name__ == "__main__":
    sys.exit(main(sys.argv[1:]))
