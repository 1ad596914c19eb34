"""live.py: what trials/live.sh and trials/edge.sh ask of a program whose input or output is a pipe or a socket.

live.py fed INPUT OUT PACKETS.. -- WORDS..  runs the program with a pipe as its standard input, which gets the first
    PACKETS packets of INPUT, for each of the ascending numbers, and stays open. Each time that the program waits for
    more it finds how many bytes OUT has, and prints these numbers on one line. Then the rest of INPUT follows. The exit
    is the program's.
live.py socket WORDS..  runs the program with a socket as its standard output, and prints what comes from there.
live.py full WORDS..  runs the program with a standard output that is a pipe in which no write waits. Nobody reads it.
live.py table PROGRAM..  prints the table of trials/live.sh, in a folder with its files, with a column for each program.
    The exit is 0 if the first program's numbers are as they are due."""

import bisect
import fcntl
import math
import os
import random
import socket
import statistics
import struct
import subprocess
import sys
import termios
import threading
import time
from concurrent.futures import ThreadPoolExecutor

PACKET = 188
# A program that takes longer to read what a pipe has is stuck.
MOST_SECONDS = 120
# The site of trials/live.sh: clear packets from one ECM to the next, and from one CAT to the next.
ECM_EVERY, CAT_EVERY = 200, 400
LIVE_BITS, RADIO_BITS = 200_000, 64_000
LIVE_SECONDS = 12
MOST_DELAY = 20
KILLS, MOST_TRIES = 100, 1000


def left_in(pipe):
    """The number of bytes that nobody has read from a pipe."""
    return struct.unpack("i", fcntl.ioctl(pipe, termios.FIONREAD, bytes(4)))[0]


def sleeps(process):
    with open(f"/proc/{process.pid}/stat", encoding="utf-8", errors="replace") as file:
        return file.read().rpartition(")")[2].split()[0] == "S"


def wait_until_read(process, pipe):
    """Waits until the program has read all and waits for more, or has ended."""
    end = time.monotonic() + MOST_SECONDS
    while process.poll() is None and not (left_in(pipe) == 0 and sleeps(process)):
        if time.monotonic() > end:
            process.kill()
        time.sleep(0.001)


def read(name):
    with open(name, "rb") as file:
        return file.read()


def sizes_while_fed(data, out, numbers, words):
    """The bytes of OUT each time that the program waits, and the program's exit."""
    process = subprocess.Popen(words, stdin=subprocess.PIPE)
    sizes, at = [], 0
    with process.stdin as pipe:
        for number in numbers:
            os.write(pipe.fileno(), data[at : PACKET * number])
            at = PACKET * number
            wait_until_read(process, pipe)
            sizes.append(os.path.getsize(out))
        pipe.write(data[at:])
    return sizes, process.wait()


def fed(source, out, *words):
    split = words.index("--")
    sizes, status = sizes_while_fed(read(source), out, [int(it) for it in words[:split]], words[split + 1 :])
    print(*sizes)
    return status


def over_socket(*words):
    near, far = socket.socketpair()
    process = subprocess.Popen(words, stdout=far)
    far.close()
    while data := near.recv(65536):
        sys.stdout.buffer.write(data)
    return process.wait()


def place_of(packet):
    """The number that a clear packet has in the broadcast of an empty book: a CAT, an EMM and an ECM are before each
    CAT_EVERY clear packets, and an ECM before the other multiples of ECM_EVERY."""
    messages, cats = packet // ECM_EVERY + 1, packet // CAT_EVERY + 1
    return packet + messages + 2 * cats


def over_full_pipe(*words):
    _, pipe = os.pipe()
    os.set_blocking(pipe, False)
    return subprocess.run(words, stdout=pipe, timeout=MOST_SECONDS).returncode


class Live:
    """A program that is fed by a pipe at a constant bit rate. When each packet was sent, and how much came when."""

    def __init__(self, words, data, bits):
        self.sent, self.times, self.sizes = [], [], []
        pipes = {"stdin": subprocess.PIPE, "stdout": subprocess.PIPE, "stderr": subprocess.DEVNULL}
        process = subprocess.Popen(words, bufsize=0, **pipes)
        reader = threading.Thread(target=self.collect, args=(process.stdout,))
        reader.start()
        start, step = time.monotonic(), 8 * PACKET / bits
        for number in range(min(int(LIVE_SECONDS / step), len(data) // PACKET)):
            time.sleep(max(0, start + number * step - time.monotonic()))
            process.stdin.write(data[PACKET * number : PACKET * (number + 1)])
            self.sent.append(time.monotonic())
        self.end = time.monotonic()
        process.stdin.close()
        reader.join()
        process.wait()

    def collect(self, pipe):
        size = 0
        while data := pipe.read(65536):
            size += len(data)
            self.times.append(time.monotonic())
            self.sizes.append(size)

    def delay(self, sent, packet):
        """The milliseconds from the sending of one packet until another came, if it came while the pipe was open."""
        at = bisect.bisect_left(self.sizes, PACKET * (packet + 1))
        if at == len(self.times) or self.times[at] > self.end:
            return math.inf
        return 1000 * (self.times[at] - self.sent[sent])


def head_delay(program):
    """From the last byte of a clear packet to its last byte in the broadcast."""
    live = Live([program, "head", "site", "book", "/dev/stdin", "/dev/stdout"], read("clear"), LIVE_BITS)
    return statistics.median(live.delay(packet, place_of(packet)) for packet in range(len(live.sent) - 1))


def receive_delay(program):
    """From the last byte of the ECM that confirms a clear packet to the packet's last byte."""
    live = Live([program, "receive", "card", "/dev/stdin", "/dev/stdout"], read("sent"), LIVE_BITS)
    delays, packet = [], 0
    while (message := place_of(packet - packet % ECM_EVERY + ECM_EVERY) - 1) < len(live.sent) - 1:
        delays.append(live.delay(message, packet))
        packet += 1
    return statistics.median(delays)


def radio_delay(program):
    """From the packet at which the head end sends the second ECM to the receiver's first packet."""
    chain = '"$1" head site book /dev/stdin /dev/stdout | "$1" receive card /dev/stdin /dev/stdout'
    live = Live(["sh", "-c", chain, "sh", program], read("clear"), RADIO_BITS)
    return live.delay(ECM_EVERY, 0)


def killed(program):
    """How many of some head ends that are killed within their work leave whole packets."""
    words, chance = [program, "head", "site", "book", "long", "killed"], random.Random(7)
    start = time.monotonic()
    subprocess.run(words, check=True)
    whole, taken = os.path.getsize("killed"), time.monotonic() - start
    kills = good = 0
    for _ in range(MOST_TRIES):
        process = subprocess.Popen(words)
        time.sleep(taken * chance.random())
        process.kill()
        process.wait()
        size = os.path.getsize("killed")
        kills += 0 < size < whole
        good += 0 < size < whole and size % PACKET == 0
        if kills == KILLS:
            break
    return f"{good} of {kills}"


def bytes_of(command, source, out, numbers):
    """What finds how many bytes OUT has, each time that a program waits for more."""

    def measure(program):
        return sizes_while_fed(read(source), out, numbers, [program, *command, "/dev/stdin", out])[0]

    return measure


def in_bytes(*numbers):
    return [PACKET * it for it in numbers]


# Each row's text, what is due, and what measures it. A delay, in milliseconds, may be shorter than what is due.
EXACT = [
    (
        "head of 200, 201 packets: bytes in OUT",
        in_bytes(203, 205),
        bytes_of(["head", "site", "book"], "clear", "broadcast", [200, 201]),
    ),
    (
        "receive of 203, 204, 407, 608: bytes in OUT",
        in_bytes(0, 200, 400, 600),
        bytes_of(["receive", "card"], "sent", "opened", [203, 204, 407, 608]),
    ),
]
TIMED = [
    ("head at 200 kbit/s: a packet's delay", MOST_DELAY, head_delay),
    ("receive at 200 kbit/s: delay from the ECM", MOST_DELAY, receive_delay),
    ("radio of 64 kbit/s: delay from the second ECM", MOST_DELAY, radio_delay),
]
FREE = [("killed head ends that leave whole packets", None, killed)]


def is_due(due, found):
    return due is None or (found == due if isinstance(due, list) else found <= due)


def shown(value):
    if isinstance(value, list):
        return " ".join(map(str, value))
    if isinstance(value, float):
        return "not at all" if value == math.inf else f"{value:.1f} ms"
    return "" if value is None else str(value)


def show(text, *values):
    print(f"{text:46}", *(f"{it:>22}" for it in values))


def table(*programs):
    with ThreadPoolExecutor() as pool:
        waiting = [[pool.submit(measure, it) for it in programs] for _, _, measure in TIMED]
        found = [[it.result() for it in row] for row in waiting]
    measured = {text: row for (text, _, _), row in zip(TIMED, found)}
    for text, _, measure in [*EXACT, *FREE]:
        measured[text] = [measure(it) for it in programs]
    show("", "due", *programs)
    for text, due, _ in [*EXACT, *TIMED, *FREE]:
        wanted = shown(due) if due is None or isinstance(due, list) else f"at most {due} ms"
        show(text, wanted, *map(shown, measured[text]))
    return 0 if all(is_due(due, measured[text][0]) for text, due, _ in [*EXACT, *TIMED]) else 1


WORKS = {"fed": fed, "socket": over_socket, "full": over_full_pipe, "table": table}

if __name__ == "__main__":
    sys.exit(WORKS[sys.argv[1]](*sys.argv[2:]))
