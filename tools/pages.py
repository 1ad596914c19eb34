#!/usr/bin/env python3
"""pages.py: what the hand-written pages name is there, and the pages are short.

The pages are README.md, those of bench/ and trials/, and docs/*.md but docs/TRUST.md. Each path, crate, script and
link that one names must be there, and so must each section that is named behind its page (`docs/FORMATS.md, Site`),
also in the comments of crates, tools and scripts. A file of a crate that is named without the crate must be in one that the same
item names, or in any if it names none. In the index of docs/PROMISES.md what stands behind `Definitions:`, `Contracts:`
and `Names:` are names, each behind its crate, and each must be defined in that crate's specs/ or src/. Each law of the
repository must be named there, and each crate in the groups of docs/ARCHITECTURE.md. The picture of the crates must be
that of tools/picture.py.

README has at most README_LINES lines, all pages together WORDS words (but for what a tool made, between two marks), a
line of text COLUMNS columns, and a cell of a table in docs/ARCHITECTURE.md CELL characters. It prints what is wrong.
Its last line is `N passed, M failed`."""

import glob
import os
import re
import sys
from collections import defaultdict

sys.dont_write_bytecode = True
import picture  # noqa: E402

TOP = os.path.dirname(os.path.dirname(os.path.realpath(__file__)))
README_LINES, WORDS, COLUMNS, CELL = 200, 32_000, 120, 300
PROMISES, INDEX = "docs/PROMISES.md", "The index"
ARCHITECTURE = "docs/ARCHITECTURE.md"
# What a page writes in place of a name.
BLANK = re.compile(r"NAME|FUNCTION|CRATE|\*+")
PATH = re.compile(r"(?<![\w./-])((?:crates|docs|tools|examples|bench|trials|\.ci)/[\w./@*-]*[\w*])")
OF_CRATE = re.compile(r"(?<![\w./-])(sd\w*/[\w./*-]*[\w*])")
CRATE = re.compile(r"(?<![\w./-])(sd_\w*)(\*?)(?![\w/])")
SCRIPT = re.compile(r"(?<![\w./@*-])([\w-]+\.(?:sh|py))\b")
ALONE = re.compile(r"(?<![\w./*-])((?:(?:src|specs|proofs|must-fail)/)?[\w/*-]*[\w*]\.(?:rt|antt|edit))\b")
LINK = re.compile(r"(?<!!)\[[^\]]*\]\(([^)\s]+)\)")
SECTION = re.compile(r"\b(?:docs/)?([A-Z]{4,})(?:\.md)?, (?=[A-Z])")
TOP_FILE = re.compile(r"(?<![\w./])\./(sdca|install|quick-tests)\b")
LABEL = re.compile(r"\b(Definitions|Contracts|Names): ")
MADE = re.compile(r"<!-- made by .*? -->.*?<!-- end -->", re.S)
LAW = re.compile(r"^pub fn (\w+)\(\)\s*\n(?:[ \t].*\n|\n)*?\{\}$", re.M)
IN_SOURCE = re.compile(
    r"\bfn (\w+)|\b(?:struct|enum|trait|const|static|type|mod|macro_rules!) (\w+)|\bensures (\w+) *\{"
    r"|^\s+([A-Z]\w*)\s*[,({]|^\s+(?:pub )?(\w+):", re.M)
IN_SPECS = re.compile(
    r"^(?:abbrev |unfoldable )*(?:pub )?(?:record |data )?([A-Za-z_]\w*)|^\s+(?:pub )?(\w+)\s*:", re.M)


def read(path):
    with open(f"{TOP}/{path}", encoding="utf-8") as file:
        return file.read()


def found(pattern):
    """The files and folders of this name; what stands for any name matches any."""
    return glob.glob(f"{TOP}/{BLANK.sub('*', pattern)}")


def slug(heading):
    """The anchor of a heading, as the usual readers of Markdown make it."""
    return re.sub(r"[^\w\- ]", "", heading.lower()).replace(" ", "-")


class Page:
    """A page: its blocks (paragraphs, items, rows, code), each with its line, and its headings."""

    def __init__(self, path):
        self.path, self.text = path, read(path)
        self.lines = self.text.splitlines()
        self.headings, self.blocks = [], []
        fenced, open_block, shown = False, False, False
        for number, line in enumerate(self.lines, 1):
            if line.lstrip().startswith("```"):
                fenced, open_block = not fenced, False
            elif fenced or re.match(r" {4,}\S", line) and not open_block:
                self.blocks.append((number, "code", line))
            elif re.match(r"#+ ", line):
                self.headings.append((number, line.lstrip("#").strip().replace("`", "")))
                open_block = False
            elif not line.strip():
                open_block = False
            elif open_block and not re.match(r"\s*([-*]|\d+\.) |\|", line):
                at, kind, text = self.blocks[-1]
                self.blocks[-1] = at, kind, f"{text} {line.strip()}"
            else:
                self.blocks.append((number, "row" if line.startswith("|") else "text", line.strip()))
                open_block = True

    def section(self, heading):
        """The blocks from this heading on."""
        start = next((number for number, it in self.headings if it == heading), None)
        return [block for block in self.blocks if start and block[0] > start]


class Checks:
    def __init__(self):
        self.passed, self.wrong = 0, []
        self.pages = [Page(path) for path in self.all_pages()]
        self.headings = {page.path: [it for _, it in page.headings] for page in self.pages}
        # The pages by the words with which text names them; README is the one at the top.
        self.named = {os.path.basename(path)[:-3]: path for path in reversed(self.headings)}
        self.crates = set(os.listdir(f"{TOP}/crates"))
        self.scripts = {os.path.basename(it) for folder in ("bench", "examples", "tools", "trials")
                        for it in glob.glob(f"{TOP}/{folder}/*")}
        self.names, self.laws = defaultdict(set), set()
        self.read_crates()

    @staticmethod
    def all_pages():
        docs = sorted(f"docs/{it}" for it in os.listdir(f"{TOP}/docs") if it.endswith(".md") and it != "TRUST.md")
        folders = [it for it in ("bench/README.md", "trials/README.md") if os.path.exists(f"{TOP}/{it}")]
        return ["README.md", *docs, *folders]

    def read_crates(self):
        """The names that each crate defines, and the laws."""
        for path in glob.glob(f"{TOP}/crates/*/src/**/*.rt", recursive=True):
            crate, text = path[len(TOP) + 8 :].split("/")[0], read(path[len(TOP) + 1 :])
            self.names[crate] |= {name for names in IN_SOURCE.findall(text) for name in names}
            self.names[crate].add(os.path.basename(path)[:-3])
            self.laws.update((crate, name) for name in LAW.findall(text) if not crate.startswith("sd_test_"))
        for path in glob.glob(f"{TOP}/crates/*/specs/**/*.antt", recursive=True):
            crate, text = path[len(TOP) + 8 :].split("/")[0], read(path[len(TOP) + 1 :])
            self.names[crate] |= {name for names in IN_SPECS.findall(text) for name in names}
            self.names[crate].add(os.path.basename(path)[:-5])

    def check(self, holds, where, said):
        if holds:
            self.passed += 1
        else:
            self.wrong.append(f"{where}: {said}")

    def places(self, page):
        """The paths, crates, scripts and links of a page."""
        for number, kind, text in page.blocks:
            where = f"{page.path}:{number}"
            for path in PATH.findall(text):
                self.check("/out" in path or found(path), where, f"there is no {path}")
            for name in TOP_FILE.findall(text):
                self.check(found(name), where, f"there is no {name}")
            if kind == "code" and "<br/>" not in text:
                continue
            for path in OF_CRATE.findall(text):
                self.check("/out" in path or found(f"crates/{path}"), where, f"there is no crates/{path}")
            for crate, any_end in CRATE.findall(text):
                is_group = any_end or crate.endswith("_")
                holds = any(it.startswith(crate) for it in self.crates) if is_group else crate in self.crates
                self.check(holds, where, f"there is no crate {crate}")
            for script in SCRIPT.findall(text):
                self.check(script in self.scripts, where, f"there is no script {script}")
            for path in ALONE.findall(text):
                if path.split("/")[0] not in self.crates | {"crates"}:
                    self.check(self.is_in_some(path, text), where, f"no crate that is named here has {path}")
            for target in LINK.findall(text):
                self.check(self.is_linked(page, target), where, f"the link {target} leads nowhere")

    def is_in_some(self, path, text):
        """Whether a crate that the text names, or any if it names none, has this file."""
        crates = {crate for crate in re.findall(r"\bsd_?\w*", text) if crate in self.crates} or self.crates
        within = path if "/" in path else f"*/{path}"
        return any(found(f"crates/{crate}/{within}") for crate in crates)

    def is_linked(self, page, target):
        path, _, anchor = target.partition("#")
        if re.match(r"\w+:", target):
            return True
        path = os.path.normpath(os.path.join(os.path.dirname(page.path), path)) if path else page.path
        if not os.path.exists(f"{TOP}/{path}"):
            return False
        return not anchor or anchor in {slug(it) for it in self.headings.get(path, [])}

    def sections(self, where, text):
        """The sections that are named behind their pages."""
        for named in SECTION.finditer(text):
            headings, rest = self.headings.get(self.named.get(named[1])), text[named.end() :].replace("`", "")
            if headings and not re.match(rf"(?:docs/)?(?:{'|'.join(self.named)})\b", rest):
                self.check(any(rest.startswith(it) for it in headings), where, f"{named[1]} has no section {rest[:40]}")

    def comments(self):
        """The sections that comments of crates, tools and scripts name."""
        for path in [it for pattern in ("crates/*/src/**/*.rt", "crates/*/specs/**/*.antt", "crates/*/proofs/**/*.antt",
                                        "bench/*.sh", "bench/*.py", "trials/*.sh", "trials/*.py", "examples/*.sh",
                                        "tools/*.py")
                     for it in glob.glob(f"{TOP}/{pattern}", recursive=True)]:
            name = path[len(TOP) + 1 :]
            text = re.sub(r"\n\s*(?://+!?|--|#)?\s*", " ", read(name))
            if name != "tools/pages.py" and "docs/" in text:
                self.sections(name, text)

    def index(self):
        """The names in the index of docs/PROMISES.md, and whether each law is one of them."""
        named = set()
        page = next(it for it in self.pages if it.path == PROMISES)
        for number, _, text in page.section(INDEX):
            where, labels = f"{PROMISES}:{number}", LABEL.split(text)[1:]
            for part in labels[1::2]:
                crate = None
                for word in re.findall(r"`[^`]+`|\bsd\w*\b", part):
                    parts = word.strip("`").split("::")
                    if parts[0] in self.crates:
                        crate = parts.pop(0)
                    for name in parts:
                        named.add((crate, name))
                        self.check(name in self.names[crate], where, f"{crate} has no {name}")
        self.check(named, PROMISES, f"there is no section {INDEX}")
        for crate, law in sorted(self.laws):
            self.check((crate, law) in named, PROMISES, f"the law {law} of {crate} is not in the index")

    def groups(self):
        """Each crate is in the groups of docs/ARCHITECTURE.md."""
        text = read(ARCHITECTURE).partition("\n## The crates\n")[2].partition("\n## ")[0]
        for crate in sorted(self.crates):
            self.check(f"`{crate}`" in text, ARCHITECTURE, f"{crate} is not among the crates")

    def lengths(self):
        for page in self.pages:
            prose = {number for number, kind, _ in page.blocks if kind != "text"}
            for number, line in enumerate(page.lines, 1):
                if len(line) > COLUMNS and number not in prose and not line.startswith("    "):
                    self.check(False, f"{page.path}:{number}", f"the line has more than {COLUMNS} columns")
            for number, kind, text in page.blocks:
                if kind == "row" and page.path == ARCHITECTURE:
                    longest = max(len(cell.strip()) for cell in text.strip("|").split("|"))
                    self.check(longest <= CELL, f"{page.path}:{number}", f"a cell has more than {CELL} characters")
        lines = len(self.pages[0].lines)
        self.check(lines <= README_LINES, "README.md", f"it has {lines} lines, more than {README_LINES}")
        words = {page.path: len(MADE.sub("", page.text).split()) for page in self.pages}
        said = ", ".join(f"{path} {count}" for path, count in words.items())
        total = sum(words.values())
        self.check(total <= WORDS, "the pages", f"they have {total} words, more than {WORDS}: {said}")

    def all(self):
        for page in self.pages:
            self.places(page)
            for number, kind, text in page.blocks:
                if kind != "code":
                    self.sections(f"{page.path}:{number}", text)
        self.comments()
        self.index()
        self.groups()
        self.lengths()
        self.check(not picture.differences(), ARCHITECTURE, "another picture: tools/picture.py --check")


def main():
    checks = Checks()
    checks.all()
    print("\n".join([*checks.wrong, f"{checks.passed} passed, {len(checks.wrong)} failed"]))
    return int(bool(checks.wrong))


if __name__ == "__main__":
    sys.exit(main())
