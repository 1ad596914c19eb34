#!/usr/bin/env python3
"""build.py [--left] [CPU]: proves the crates that the program is built from, each by one call of the toolchain's compiler
`rattle`, and builds out/sdca for the processor CPU. `rt all check` and `rt run` do the same work and more beside it.

A crate is proved again if its sources, its line in crates.txt, the toolchain or a library below it changed since its
last proof; a folder that was moved or copied is proved still. A library is its statements alone, so a changed comment
or proof stops at its crate.

--left prints how many crates are left to prove or build, and does nothing.

Exit status: 0 all is proved and built, 1 a crate failed, 3 the toolchain's compiler lacks what this script calls.
SDCA_JOBS is the number of processors to use. Each proves a crate of its own. Where fewer crates than that can be
proved at once, each gets a share of the processors, on which the compiler checks several of its functions at once.
The log goes to standard output: for each crate a line `== NAME` and what the compiler said, then `NAME: failed
(STATUS)` if it failed."""

import hashlib
import os
import re
import shlex
import shutil
import subprocess
import sys
from concurrent.futures import FIRST_COMPLETED, ThreadPoolExecutor, wait

TOP = os.path.dirname(os.path.dirname(os.path.realpath(__file__)))
PROGRAM = "sdca"
BUILT = f"{TOP}/out/{PROGRAM}"
# The gate refuses sources outside a crate, and so libraries, which have sources, anywhere but in a folder of this name.
KEPT = f"{TOP}/crates/{PROGRAM}/out/rlib"
# What a proof of one crate takes at most.
MEMORY_EACH = 2_000_000_000
FLAGS = "--extern -L --antt-project --logic-built --jobs --links --statements --toolchain --backend --cpu".split()


class Unfit(Exception):
    """The toolchain's compiler can't be called as this script does."""


class Kit:
    """The toolchain's folder, and the parts of it that a build names."""

    def __init__(self):
        try:
            self.folder = os.path.dirname(said_by("rt", "doc").strip())
            self.rattle = f"{self.folder}/bin/rattle"
            found = os.stat(self.rattle)
            self.version = f"{said_by('rt', 'version')} {found.st_size} {found.st_mtime_ns}"
        except (OSError, subprocess.CalledProcessError) as error:
            raise Unfit(str(error)) from error

    def stop_if_unfit(self):
        parts = "bin/rattle-link rlibs logic_built rattle/logic/antt-project.json toolchain c/libos_c.a c/liblibc_c.a"
        lacking = [part for part in parts.split() if not os.path.exists(f"{self.folder}/{part}")]
        said = said_by(self.rattle, "build", "--help")
        lacking += [flag for flag in FLAGS if not re.search(rf"(?m)^ +{flag}(?![\w-])", said)]
        if lacking:
            raise Unfit(f"the toolchain lacks {', '.join(lacking)}")


class Crate:
    """A crate of crates.txt: the libraries that it names, of the repository and of the toolchain, and all below it."""

    def __init__(self, name, names, crates, kit):
        self.name, self.kit = name, kit
        self.folder = f"{TOP}/crates/{name}"
        self.root = "src/main.rt" if name == PROGRAM else "src/lib.rt"
        self.own = [crates[it] for it in names if it in crates]
        self.of_kit = ["std", *[it for it in names if it not in crates]]
        self.below = list(dict.fromkeys(low for it in self.own for low in [*it.below, it]))
        self.seen = self.sum = self.key = None

    def files(self):
        found = []
        for part in ("src", "specs", "proofs"):
            for folder, _, names in os.walk(f"{self.folder}/{part}"):
                found += [f"{folder}/{name}" for name in names]
        return sorted(found)

    def times(self):
        """The sources' names, sizes and times: equal ones mean that nothing was edited in between."""
        found = [(file, os.stat(file)) for file in self.files()]
        return [(file, it.st_size, it.st_mtime_ns, it.st_ino) for file, it in found]

    def look(self, cpu):
        """Computes the key of all that the proof depends on, once the crates below are proved."""
        self.seen = self.times()
        below = [(it.name, it.sum) for it in self.below]
        words = [it.replace(f"{TOP}/", "") for it in self.words()]
        parts = [self.kit.version, cpu, words, below]
        parts += [(os.path.relpath(file, self.folder), sum_of([file])) for file in self.files()]
        self.key = hashlib.sha256(repr(parts).encode()).hexdigest()

    def words(self):
        """The compiler's arguments, less those for what it makes."""
        kit = self.kit.folder
        words = ["--crate-name", self.name, self.root]
        for name in self.of_kit:
            words += ["--extern", f"{name}={kit}/rlibs/{name}.rlib"]
        for low in self.own:
            words += ["--extern", f"{low.name}={low.made()}"]
        words += ["-L", f"dependency={kit}/rlibs", "-L", f"dependency={KEPT}"]
        words += ["--antt-project", f"{kit}/rattle/logic/antt-project.json", "--logic-built", f"{kit}/logic_built"]
        return [*words, "--links", f"{self.name}="]

    def made(self):
        return BUILT if self.name == PROGRAM else f"{KEPT}/{self.name}.rlib"

    def is_proved(self):
        """Whether what an earlier run made is of this key; its sum is then known."""
        try:
            with open(f"{KEPT}/{self.name}.key", encoding="utf-8") as file:
                key, kept = file.read().split()
        except (OSError, ValueError):
            return False
        if key != self.key or not os.path.exists(self.made()):
            return False
        self.sum = kept
        return self.name != PROGRAM or sum_of([BUILT]) == kept

    def prove(self, cpu, processors):
        """Proves the crate on this number of processors and keeps what is made. Returns what the compiler said, and the
        status of a failure or 0."""
        new = f"{KEPT}/{self.name}.new"
        remove(new)
        jobs = ["--jobs", str(processors)]
        library = self.build(*jobs, "--statements", "-o", new)
        steps = self.program_steps(cpu, jobs, new) if self.name == PROGRAM else [library]
        said = ""
        for words in steps:
            ran = subprocess.run(words, cwd=f"{self.folder}", close_fds=False, stdin=subprocess.DEVNULL,
                                 stdout=subprocess.PIPE, stderr=subprocess.STDOUT, errors="replace")
            said += ran.stdout
            if ran.returncode:
                return said, ran.returncode
        if self.times() != self.seen:
            return f"{said}error: {self.name} was edited during its proof\n", 1
        remove(f"{KEPT}/{self.name}.key")
        if self.name != PROGRAM:
            remove(self.made())
        os.rename(new, self.made())
        self.sum = sum_of(tree(self.made()), self.made())
        with open(f"{KEPT}/{self.name}.key", "w", encoding="utf-8") as file:
            file.write(f"{self.key}\n{self.sum}\n")
        return said, 0

    def build(self, *more):
        return [self.kit.rattle, "build", *self.words(), *more]

    def program_steps(self, cpu, jobs, new):
        """Proves and compiles, links, and runs the example, whose exit status is 0."""
        kit = self.kit.folder
        tools = ["--toolchain", f"{kit}/toolchain"]
        named = ["--cpu", cpu] if cpu else []
        link = [f"{kit}/bin/rattle-link", "--target", "x86_64-unknown-linux-gnu", *tools]
        return [
            self.build(*jobs, *tools, "--backend", "llvm", *named, "-o", f"{new}.o"),
            [*link, "-o", new, f"{new}.o", f"{kit}/c/libos_c.a", f"{kit}/c/liblibc_c.a"],
            [new, "cover", "data/site.txt", "data/book.txt"],
        ]


def said_by(*words):
    return subprocess.run(words, check=True, stdin=subprocess.DEVNULL, stdout=subprocess.PIPE, text=True).stdout


def remove(path):
    if os.path.isdir(path):
        shutil.rmtree(path)
    elif os.path.lexists(path):
        os.remove(path)


def tree(path):
    """The files at or below a path."""
    below = [f"{folder}/{name}" for folder, _, names in os.walk(path) for name in names]
    return sorted(below) or [path]


def sum_of(files, top=TOP):
    total = hashlib.sha256()
    for name in files:
        with open(name, "rb") as file:
            data = file.read()
        total.update(f"{os.path.relpath(name, top)} {len(data)}\n".encode() + data)
    return total.hexdigest()


def read_crates(kit):
    """The crates that the program is built from, each after those below it."""
    lines = {}
    with open(f"{TOP}/crates.txt", encoding="utf-8") as file:
        for line in file:
            name, colon, names = line.partition("#")[0].partition(":")
            if colon:
                lines[name.strip()] = names.split()
    made = {}

    def make(name):
        for low in lines[name]:
            if low in lines and low not in made:
                make(low)
        made[name] = Crate(name, lines[name], made, kit)

    make(PROGRAM)
    return list(made.values())


def chains(crates):
    """For each crate the lines of the longest chain of crates that starts with it, which tells what to prove first."""
    lengths = {}
    for crate in reversed(crates):
        above = [lengths[it.name] for it in crates if crate in it.below]
        own = sum(os.path.getsize(file) for file in crate.files())
        lengths[crate.name] = own + max(above, default=0)
    return lengths


def count_processors():
    """The processors, as far as memory holds a proof on each."""
    asked = os.environ.get("SDCA_JOBS", "")
    if asked.isdigit():
        return max(1, int(asked))
    with open("/proc/meminfo", encoding="utf-8") as file:
        free = re.search(r"MemAvailable:\s+(\d+)", file.read())
    room = 1024 * int(free[1]) // MEMORY_EACH if free else 1
    return max(1, min(room, len(os.sched_getaffinity(0))))


def count_left(crates, cpu):
    left = set()
    for crate in crates:
        if not left.intersection(it.name for it in crate.below):
            crate.look(cpu if crate.name == PROGRAM else "")
            if crate.is_proved():
                continue
        left.add(crate.name)
    return len(left)


def step(crate, cpu, processors):
    crate.look(cpu)
    if crate.is_proved():
        return "", 0
    return crate.prove(cpu, processors)


def prove_all(crates, cpu):
    """Proves each crate once those below it are proved, the longest chain first. Returns whether all went well."""
    lengths = chains(crates)
    waiting, running, done = sorted(crates, key=lambda it: -lengths[it.name]), {}, set()
    processors, failed = count_processors(), False
    with ThreadPoolExecutor(processors) as pool:
        while running or waiting and not failed:
            ready = [it for it in waiting if done.issuperset(it.below)] if not failed else []
            starting = ready[: processors - len(running)]
            together = len(running) + len(starting)
            for crate in starting:
                waiting.remove(crate)
                share = -(-processors // together)
                running[pool.submit(step, crate, cpu if crate.name == PROGRAM else "", share)] = crate
            for ended in wait(running, return_when=FIRST_COMPLETED).done:
                crate, (said, status) = running.pop(ended), ended.result()
                print(f"== {crate.name}\n{said}", end="", flush=True)
                if status:
                    print(f"{crate.name}: failed ({status})", flush=True)
                failed = failed or status != 0
                done.add(crate)
    return not failed


def main(words):
    try:
        kit = Kit()
        crates = read_crates(kit)
        cpu = next((it for it in words if it != "--left"), "")
        left = count_left(crates, cpu)
        if "--left" in words:
            print(left)
            return 0
        if left:
            kit.stop_if_unfit()
    except Unfit as error:
        print(f"build.py: {error}")
        return 3
    os.makedirs(KEPT, exist_ok=True)
    os.makedirs(f"{TOP}/out", exist_ok=True)
    return 0 if prove_all(crates, cpu) else 1


if __name__ == "__main__":
    sys.exit(main(sys.argv[1:]))
