#!/usr/bin/env python3
"""relay.py PORT: a bad line of transport packets over UDP on this machine, for a trial of `watch`. It reads a stream
from the standard input, sends it to PORT in datagrams of seven packets, and receives it there again: what comes goes
to the standard output. A part of the datagrams is lost, sent twice, has one wrong bit, or is marked as damaged, as a
demodulator marks a packet (transport_error_indicator).

relay.py PORT LOST TWICE WRONG MARKED: how many of 10,000 datagrams each of these befalls, 20 if not given. What is
chosen is the same in each run. The last line on the standard error counts them."""

import random
import socket
import sys
import threading

SIZE = 188
PACKETS = 7
OF = 10000
END = b""


def main():
    port, *shares = [int(word) for word in sys.argv[1:]] or sys.exit(__doc__)
    lost, twice, wrong, marked = shares or [20, 20, 20, 20]
    there = socket.socket(socket.AF_INET, socket.SOCK_DGRAM)
    there.setsockopt(socket.SOL_SOCKET, socket.SO_RCVBUF, 1 << 22)
    there.bind(("127.0.0.1", port))
    here = socket.socket(socket.AF_INET, socket.SOCK_DGRAM)
    here.connect(("127.0.0.1", port))
    listener = threading.Thread(target=receive, args=(there,))
    listener.start()
    chance = random.Random(7)
    counts = dict.fromkeys(["datagrams", "lost", "sent twice", "with a wrong bit", "marked"], 0)
    while datagram := sys.stdin.buffer.read(SIZE * PACKETS):
        counts["datagrams"] += 1
        datagram = bytearray(datagram)
        place = chance.randrange(OF)
        if place < lost:
            counts["lost"] += 1
            continue
        if place < lost + twice:
            counts["sent twice"] += 1
            here.send(datagram)
        elif place < lost + twice + wrong:
            counts["with a wrong bit"] += 1
            bit = chance.randrange(8 * len(datagram))
            datagram[bit // 8] ^= 0x80 >> bit % 8
        elif place < lost + twice + wrong + marked:
            counts["marked"] += 1
            datagram[SIZE * chance.randrange(len(datagram) // SIZE) + 1] |= 0x80
        here.send(datagram)
    here.send(END)
    listener.join()
    print(", ".join(f"{count} {name}" for name, count in counts.items()), file=sys.stderr)


def receive(there):
    """Writes what comes, up to an empty datagram."""
    while datagram := there.recv(1 << 16):
        sys.stdout.buffer.write(datagram)
        sys.stdout.buffer.flush()


main()
