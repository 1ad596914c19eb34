#!/usr/bin/env python3
"""blocks.py PAGE..: runs the shell blocks of pages, and compares what they print with what the pages show.

A page's blocks with the info string `sh` run in the page's order, in one shell (`sh`) and one new folder. The folder
looks like this repository's top: it has a copy of `examples`, and the program as `sdca` and as `out/sdca`; `sdca` is on
PATH too. A block without an info string, or with `text`, that comes right below such a block shows what it prints, on
both outputs. A line `..` stands for any number of lines, and `..` within a line for any characters. A block below which
nothing is shown passes if its last command's exit status is 0. Blocks of other info strings, and blocks with `text` in
another place, are not run.

A block that needs a program which isn't here is left out, and said to be; no later block may need it then. SDCA=PROGRAM
names the program `sdca`; without it the program is built first. The last line is `N passed, M failed`."""

import os
import re
import shutil
import signal
import subprocess
import sys
import tempfile
import time

TOP = os.path.dirname(os.path.dirname(os.path.realpath(__file__)))
# What a block may need that isn't everywhere: a program, and the words that tell it.
NEEDS = {
    "ffmpeg": r"\b(?:ffmpeg|ffplay|ffprobe|boxes\.sh|live\.sh)\b",
    "neato": r"\b(?:neato|draw\.sh)\b",
    "parallel": r"\bparallel\b",
    "flock": r"\b(?:flock|air\.sh|append\.sh|remove_torn\.sh|days\.sh)\b",
}
# A page's blocks are ended after this time.
MOST_SECONDS = 300
# How long they have to end in order.
GRACE_SECONDS = 5


class Block:
    """A fenced block of a page: its first line's number, its info string, and its lines."""

    def __init__(self, line, info):
        self.line, self.info, self.lines = line, info, []
        # What the page shows below it, if it does; what it printed, and its exit status, once it ran.
        self.shown = self.printed = self.status = None

    def text(self):
        return "".join(f"{line}\n" for line in self.lines)


def blocks_of(page):
    """The shell blocks of a page, each with what is shown right below it."""
    with open(page, encoding="utf-8") as file:
        lines = file.read().split("\n")
    blocks, block, above = [], None, None
    for number, line in enumerate(lines, 1):
        if block is not None:
            if line.startswith("```"):
                if block.info == "sh":
                    blocks.append(block)
                    above = block
                elif block.info in ("", "text") and above is not None:
                    above.shown = block.text()
                    above = None
                else:
                    above = None
                block = None
            else:
                block.lines.append(line)
        elif line.startswith("```"):
            block = Block(number + 1, line[3:].strip())
        elif line.strip():
            above = None
    if block is not None:
        sys.exit(f"{page}:{block.line}: the block has no end")
    return blocks


def lacking(block):
    """A program that the block needs and that isn't here, or None."""
    for program, words in NEEDS.items():
        if re.search(words, block.text()) and not shutil.which(program):
            return program
    return None


def make_folder(program):
    """A new folder that looks like the top of this repository."""
    folder = tempfile.mkdtemp()
    shutil.copytree(f"{TOP}/examples", f"{folder}/examples")
    for name in ("out", "tmp"):
        os.mkdir(f"{folder}/{name}")
    for name in ("sdca", "out/sdca"):
        os.symlink(program, f"{folder}/{name}")
    return folder


def run(blocks, folder):
    """Runs the blocks one after the other in one shell, and gives each what it printed and its exit status."""
    mark = f"== block {os.getpid()}"
    script = f"{folder}/tmp/blocks.sh"
    with open(script, "w", encoding="utf-8") as file:
        for number, block in enumerate(blocks):
            file.write(f"printf '{mark} {number}\\n'\n{block.text()}printf '\\n{mark} ends %s\\n' \"$?\"\n")
    surroundings = {name: value for name, value in os.environ.items() if name not in ("SDCA", "CDPATH")}
    surroundings |= {"PATH": f"{folder}/out:{os.environ['PATH']}", "TMPDIR": f"{folder}/tmp", "LC_ALL": "C"}
    with open(f"{folder}/tmp/printed", "w+b") as printed:
        shell = subprocess.Popen(
            ["sh", script], cwd=folder, env=surroundings, start_new_session=True,
            stdin=subprocess.DEVNULL, stdout=printed, stderr=subprocess.STDOUT,
        )
        try:
            shell.wait(MOST_SECONDS)
        except subprocess.TimeoutExpired:
            print(f"the blocks took more than {MOST_SECONDS} s and are ended")
        finally:
            end(shell)
        printed.seek(0)
        text = printed.read().decode("utf-8", "replace")
    for number, block in enumerate(blocks):
        _, begun, rest = text.partition(f"{mark} {number}\n")
        if begun:
            block.printed, ended, rest = rest.partition(f"\n{mark} ends ")
            block.status = int(rest.split("\n", 1)[0]) if ended else None


def end(shell):
    """Ends what the shell began and left, and nothing else."""
    try:
        for number, seconds in ((signal.SIGTERM, GRACE_SECONDS), (signal.SIGKILL, 1)):
            os.killpg(shell.pid, number)
            for _ in range(10 * seconds):
                shell.poll()
                os.killpg(shell.pid, 0)
                time.sleep(0.1)
    except ProcessLookupError:
        pass
    shell.wait()


def is_shown(shown, printed):
    """Whether the text is what the page shows."""
    form = ""
    for line in shown.splitlines():
        form += "(?:.*\n)*" if line == ".." else re.escape(line).replace(r"\.\.", ".*") + "\n"
    if printed and not printed.endswith("\n"):
        printed += "\n"
    return re.fullmatch(form, printed) is not None


def passes(page, block):
    """Whether the block did what the page says. Tells why not."""
    if block.status is None:
        why = "it was not reached, or ended the shell"
    elif block.shown is not None and not is_shown(block.shown, block.printed):
        why = "it doesn't print what the page shows"
    elif block.shown is None and block.status != 0:
        why = f"its exit status is {block.status}"
    else:
        return True
    print(f"FAILED: {page}:{block.line}: {why}")
    for name, text in (("block", block.text()), ("shown", block.shown), ("printed", block.printed)):
        if text is not None:
            print("".join(f"    {name}: {line}\n" for line in text.splitlines()), end="")
    return False


def find_program():
    program = os.environ.get("SDCA")
    if not program:
        if subprocess.run([f"{TOP}/sdca", "build"], check=False).returncode:
            sys.exit("blocks.py: the program can't be built")
        program = f"{TOP}/out/sdca"
    program = shutil.which(program)
    return os.path.realpath(program) if program else sys.exit(f"blocks.py: {os.environ['SDCA']} is no program")


def main(pages):
    signal.signal(signal.SIGTERM, lambda number, frame: sys.exit(1))
    program = find_program()
    passed = failed = 0
    for page in pages:
        blocks = []
        for block in blocks_of(page):
            needed = lacking(block)
            if needed:
                print(f"left out: {page}:{block.line}: {needed} isn't here")
            else:
                blocks.append(block)
        folder = make_folder(program)
        try:
            run(blocks, folder)
        finally:
            shutil.rmtree(folder, ignore_errors=True)
        good = sum(passes(page, block) for block in blocks)
        passed += good
        failed += len(blocks) - good
    print(f"{passed} passed, {failed} failed")
    return 1 if failed or not passed else 0


if __name__ == "__main__":
    sys.exit(main(sys.argv[1:]) if sys.argv[1:] else __doc__)
