#!/usr/bin/python3
"""bench.py PROGRAM SAMPLES FOLDER: what `cue` is asked to take, measured on this machine; ends with 1 where a bar is missed. SAMPLES has a cue a line,
in hexadecimal. A million of them as base64 on standard input, `show --json`: 200,000 a second at least, and as much memory as for ten thousand. A file of
1 GB in which one packet in a hundred is of the PID, and has a cue: `sections --json` takes at most 4 times the time of `cat FILE | wc -c`. Each is run
five times, in turn; the best time counts, and the most memory."""
import base64
import itertools
import os
import random
import subprocess
import sys

PROGRAM, SAMPLES, FOLDER = sys.argv[1:]
TURNS = 5
PID = 500
PACKETS = 10**9 // 188


def cues():
    with open(SAMPLES, encoding="ascii") as f:
        return [bytes.fromhex(line) for line in f]


def lay_cues(name, count):
    with open(name, "wb") as f:
        f.writelines(base64.b64encode(cue) + b"\n" for cue in itertools.islice(itertools.cycle(cues()), count))


def packet(pid, counter, payload, start=0):
    return bytes([0x47, start | pid >> 8, pid & 255, 0x10 | counter]) + payload.ljust(184, b"\xff")


def lay_packets(name):
    """A hundred packets at a time: one of the PID, and 99 of others. Counters go round with sixteen of these, samples with as many as there are."""
    rng = random.Random(1)
    others = [packet(rng.choice([p for p in range(8191) if p != PID]), rng.randrange(16), rng.randbytes(184)) for _ in range(99)]
    own = [packet(PID, n % 16, b"\0" + cue, 0x40) for n, cue in zip(range(16 * len(cues())), itertools.cycle(cues()))]
    hundreds = [b"".join(others[:37] + [p] + others[37:]) for p in own]
    with open(name, "wb") as f:
        f.writelines(itertools.islice(itertools.cycle(hundreds), PACKETS // 100))


def run(words, stdin=None):
    """seconds of clock and of processor, and memory in KB, by GNU time (a child of Python itself has Python's memory as its most)"""
    said = os.path.join(FOLDER, "time")
    subprocess.run(["/usr/bin/time", "-o", said, "-f", "%e %U %S %M", *words], stdin=stdin, stdout=subprocess.DEVNULL, stderr=subprocess.DEVNULL, check=True)
    with open(said, encoding="ascii") as f:
        clock, user, system, memory = f.read().split()
    return float(clock), float(user) + float(system), int(memory)


def show(name):
    with open(name, "rb") as f:
        return run([PROGRAM, "show", "--json", "-"], f)


def main():
    many, few, stream = (os.path.join(FOLDER, name) for name in ("million", "few", "stream.ts"))
    lay_cues(many, 10**6)
    lay_cues(few, 10**4)
    lay_packets(stream)
    kinds = [
        lambda: show(many),
        lambda: show(few),
        lambda: run([PROGRAM, "sections", "--pid", str(PID), "--json", stream]),
        lambda: run(["sh", "-c", 'cat "$0" | wc -c', stream]),
    ]
    turns = [[kind() for kind in kinds] for _ in range(TURNS)]
    shown, _, given, copied = (min(turn[k][0] for turn in turns) for k in range(4))
    processor = min(turn[0][1] for turn in turns)
    memory = [max(turn[k][2] for turn in turns) for k in range(3)]
    print(f"a million cues: {shown:.2f} s, {10**6 / shown:,.0f} a second (bar 200,000); {processor:.2f} s of processor")
    print(f"memory: {memory[0]:,} KB, for ten thousand {memory[1]:,} KB")
    size = os.path.getsize(stream)
    print(f"{size:,} bytes of packets: {given:.2f} s, {given / copied:.2f} times cat and wc (bar 4), which took {copied:.2f} s; {memory[2]:,} KB")
    return 0 if shown <= 5 and given <= 4 * copied and memory[0] <= memory[1] + 1024 and memory[2] <= 16384 else 1


sys.exit(main())
