"""flips.py PROGRAM CARD STREAM CLEAR: flips single bits of STREAM, broadcasts that follow one another, and counts what
`watch` writes less of CLEAR. The rows that it prints are told in flips.sh."""

import os
import subprocess
import sys
import tempfile
from collections import Counter
from concurrent.futures import ThreadPoolExecutor

SIZE = 188
BITS = 48
# The exits of a stream that is read to its end, if the receiver isn't revoked, and what stands in each line.
ENDINGS = 0, 13, 14, 15
LINE = b'"packets":'
SYNC_BITS = 8
PID_BITS = range(11, 24)
CLEAR = "clear packet"
CAT, EMM, ECM = 0x0001, 0x01F0, 0x01F1
# How many clear packets are between two control messages; each is the first one of a crypto period.
EVERY = 100


def packets_of(data):
    return [data[i : i + SIZE] for i in range(0, len(data), SIZE)]


def kinds_of(packets):
    """What each packet of the stream is, and how many packets one that is lost may cost at most."""
    found = []
    for packet in packets:
        pid = (packet[1] & 0x1F) << 8 | packet[2]
        if pid == CAT:
            found.append(("later CAT", 0) if ("CAT", EVERY) in found else ("CAT", EVERY))
        elif pid == EMM:
            found.append(("entitlements", EVERY))
        elif pid == ECM:
            found.append(("control message", 2 * EVERY))
        else:
            found.append((CLEAR, EVERY))
    return found


def lost(due, got):
    """How many of the packets aren't among the others; and whether those that are there stand in their order."""
    missing = sum((Counter(due) - Counter(got)).values())
    once = {packet: i for i, packet in enumerate(due) if due.count(packet) == 1}
    places = [once[packet] for packet in got if packet in once]
    return missing, all(a < b for a, b in zip(places, places[1:]))


def main():
    program, card, stream, clear = sys.argv[1:]
    sent = open(stream, "rb").read()
    due = packets_of(open(clear, "rb").read())
    packets = packets_of(sent)
    kinds = kinds_of(packets)
    rows = {}
    with tempfile.TemporaryDirectory() as folder:

        def run(place):
            n, bit = divmod(place, BITS)
            data = bytearray(sent)
            data[SIZE * n + bit // 8] ^= 0x80 >> bit % 8
            name = os.path.join(folder, str(place))
            open(name, "wb").write(data)
            ran = subprocess.run([program, "watch", card, name, name + ".out"], capture_output=True)
            got = packets_of(open(name + ".out", "rb").read())
            os.remove(name)
            os.remove(name + ".out")
            return n, bit, ran, got

        with ThreadPoolExecutor(os.cpu_count()) as pool:
            for n, bit, ran, got in pool.map(run, range(len(packets) * BITS)):
                kind, most = kinds[n]
                # Without its sync byte a packet isn't found, nor is the one before it.
                if bit < SYNC_BITS and n > 0:
                    kind, most = f"{kind}, sync byte", most + kinds[n - 1][1]
                # A message that comes to another PID is a packet more on it, which may cost what is between two messages.
                if bit in PID_BITS and kind != CLEAR:
                    kind, most = f"{kind}, PID", most + EVERY
                cost, is_ordered = lost(due, got)
                row = rows.setdefault(kind, {"flips": 0, "worst": 0, "most": 0, "failed": 0})
                row["flips"] += 1
                row["most"] = max(row["most"], most)
                row["worst"] = max(row["worst"], cost)
                is_ended = ran.returncode in ENDINGS and LINE in ran.stdout
                if not is_ended or not is_ordered or cost > most:
                    row["failed"] += 1
                    print(f"FAILED: packet {n} ({kind}) bit {bit}: exit {ran.returncode}, costs {cost}")
    for kind, row in sorted(rows.items()):
        print(f"{kind}: {row['flips']} bits, the worst costs {row['worst']} packets, at most {row['most']}")
    failed = sum(row["failed"] for row in rows.values())
    print(f"{sum(row['flips'] for row in rows.values()) - failed} passed, {failed} failed")
    return failed > 0


sys.exit(main())
