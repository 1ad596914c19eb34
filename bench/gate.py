"""gate.py FOLDER: runs `rt ci` in a clone, and prints the processor minutes of each kind of work, all of them, the wall
time, the toolchain and the gate's last line. The sum is exact. A sampler finds the kinds, and misses what a process takes
after its last sample."""

import os
import resource
import subprocess
import sys
import time

SECONDS = 1
TICK = os.sysconf("SC_CLK_TCK")
# The kinds by words of a command line, the first that fits. Another process is of its parent's kind.
KINDS = [
    ("tests", ("rattle", "--test")),
    ("tests", ("rattle-test",)),
    ("rt itself", ("rattle", "fmt")),
    ("proofs", ("rattle", "build", "--statements")),
    ("proofs", ("rattle", "check", "-o")),
    ("programs", ("rattle", "build")),
    ("programs", ("rattle-link",)),
    ("edits", ("rattle", "check")),
    ("rt itself", ("rt", "ci")),
]


def words_of(process):
    """The words of its command line, a path by its last part."""
    with open(f"/proc/{process}/cmdline", encoding="utf-8", errors="replace") as file:
        return {os.path.basename(word) for word in file.read().split("\0")}


def numbers_of(process):
    """The parent, the start and the processor seconds of a process."""
    with open(f"/proc/{process}/stat", encoding="utf-8", errors="replace") as file:
        fields = file.read().rpartition(")")[2].split()
    return int(fields[1]), int(fields[19]), (int(fields[11]) + int(fields[12])) / TICK


class Sampler:
    """What was seen of the gate's processes, by process and start: the kind and the processor seconds so far."""

    def __init__(self, gate):
        self.gate, self.seen = gate, {}

    def sample(self):
        found = {}
        for name in filter(str.isdigit, os.listdir("/proc")):
            try:
                found[int(name)] = (*numbers_of(name), words_of(name))
            except (OSError, ValueError, IndexError):
                continue
        kinds = {}
        for process in found:
            kind = self.kind_of(process, found, kinds)
            if kind:
                _, start, used, _ = found[process]
                self.seen[process, start] = kind, used

    def kind_of(self, process, found, kinds):
        """The kind of a process of the gate, or None."""
        if process not in found:
            return None
        if process not in kinds:
            parent, start, _, words = found[process]
            known = self.seen.get((process, start), (None,))[0]
            above = "rt itself" if process == self.gate else known or self.kind_of(parent, found, kinds)
            own = next((kind for kind, wanted in KINDS if words.issuperset(wanted)), above)
            kinds[process] = own if above else None
        return kinds[process]

    def sums(self):
        sums = {}
        for kind, used in self.seen.values():
            sums[kind] = sums.get(kind, 0) + used
        return sums


def main(folder):
    start, last = time.time(), ""
    with open(f"{folder}/gate.log", "w+", encoding="utf-8", errors="replace") as log:
        gate = subprocess.Popen(["rt", "ci"], cwd=folder, stdin=subprocess.DEVNULL, stdout=log, stderr=subprocess.STDOUT)
        sampler = Sampler(gate.pid)
        while gate.poll() is None:
            sampler.sample()
            time.sleep(SECONDS)
        log.seek(0)
        for last in log:
            pass
    used = resource.getrusage(resource.RUSAGE_CHILDREN)
    total, sums = used.ru_utime + used.ru_stime, sampler.sums()
    for kind, seconds in sorted(sums.items(), key=lambda it: -it[1]):
        print(f"{kind:12} {seconds / 60:8.1f} processor minutes")
    print(f"{'not sampled':12} {(total - sum(sums.values())) / 60:8.1f}")
    print(f"{'all':12} {total / 60:8.1f}")
    print(f"{'wall':12} {(time.time() - start) / 60:8.1f} minutes on {len(os.sched_getaffinity(0))} processors")
    print(subprocess.run(["rt", "version"], check=True, stdout=subprocess.PIPE, text=True).stdout.strip())
    print(last.strip())
    return gate.returncode


if __name__ == "__main__":
    sys.exit(main(sys.argv[1]))
