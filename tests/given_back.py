#!/usr/bin/env python3
"""Looks whether the built tracerun gives back the memory that a call of many notes took.

usage: given_back.py [--program FILE]

The script has 64 layers, and twice a chain of 128 spans. The first time each span closes by itself, with a line for
each layer; the second time all close in one call, with 8,192 lines. Behind each stand an event, since the room of a
call's lines is given back by the next one that has some, and calls that keep nothing. While the program waits there until its output is read, `count_memory.c`, loaded before the C library, says how many bytes it
has: the second time as many as the first, but for MARGIN, which is less than places for 512 lines take. (The text of a
call's lines goes into one buffer, which stays. An event with a long message has made it large enough before.)
The last line is 'N passed, M failed'.
"""
import argparse
import fcntl
import json
import os
import subprocess
import sys
import tempfile
import time

from run_cases import current_program
from soak import COUNTS, counting

LAYERS, SPANS, CALLS = 64, 128, 10_000
MESSAGE = "x" * 40_000
PIPE, SET_PIPE_SIZE = 4096, 1031
SETTLES = 0.5
MARGIN = 16_384
NOTHING = b"! unknown\n"


def line(**members):
    return json.dumps(members) + "\n"


def chain(closes):
    """A chain of spans, whose handles come back in this order."""
    made = [line(op="new", name="a", label=str(nth), parent=str(nth - 1) if nth else None) for nth in range(SPANS)]
    return "".join(made + [line(op="close", span=str(nth)) for nth in closes])


def script():
    layers = line(op="layer", spans=8) * LAYERS + line(op="event", message=MESSAGE)
    nothing = line(op="event", message="") + line(op="close", span=1 << 40) * CALLS
    return layers + chain(reversed(range(SPANS))) + nothing + chain(range(SPANS)) + nothing


def bytes_now(counts):
    """How many bytes the program has taken and not given back."""
    with open(counts, "rb") as file:
        return COUNTS.unpack(file.read(COUNTS.size))[0]


def begun(program, folder, counts):
    """The running program, and where its output is read: in between fit a pipe and the program's buffer of 32 KiB."""
    path = os.path.join(folder, "script")
    with open(path, "w", encoding="utf-8") as file:
        file.write(script())
    with open(counts, "wb") as file:
        file.write(bytes(COUNTS.size))
    reading, writing = os.pipe()
    fcntl.fcntl(writing, SET_PIPE_SIZE, PIPE)
    given = dict(os.environ, LD_PRELOAD=counting(folder), COUNTS=counts)
    try:
        with open(path, "rb") as source:
            return subprocess.Popen([program, "replay"], stdin=source, stdout=writing, env=given), reading
    finally:
        os.close(writing)


def run(program):
    """The bytes that it had at the first of both places and at the second, what it wrote, and its status."""
    with tempfile.TemporaryDirectory() as folder:
        counts = os.path.join(folder, "counts")
        process, reading = begun(program, folder, counts)
        pieces, had, seen, rest = [], [], 0, b""
        with os.fdopen(reading, "rb", buffering=0) as output:
            for piece in iter(lambda: output.read(PIPE), b""):
                pieces.append(piece)
                seen += (rest + piece).count(NOTHING)
                rest = (rest + piece)[1 - len(NOTHING):]
                if len(had) < 2 and seen >= len(had) * CALLS + CALLS // 10:
                    time.sleep(SETTLES)
                    had.append(bytes_now(counts))
        return had, b"".join(pieces), process.wait()


def main():
    parser = argparse.ArgumentParser(description=__doc__, formatter_class=argparse.RawDescriptionHelpFormatter)
    parser.add_argument("--program", default="", type=current_program)
    program = parser.parse_args().program
    if not program:
        sys.exit("the proved program isn't there: ./tracerun --prove")
    had, output, status = run(program)
    is_as_meant = (status, output.count(b"= open\n"), output.count(b" close ")) == (0, SPANS - 1, 2 * SPANS * LAYERS)
    is_level = len(had) == 2 and 0 < had[0] and had[1] <= had[0] + MARGIN
    print(f"status {status}, bytes after {LAYERS} lines and after {SPANS * LAYERS}: {had}")
    if not is_as_meant:
        print("FAILED: the spans didn't close one by one and then at once")
    if not is_level:
        print("FAILED: the memory of a call's lines isn't given back")
    passed = is_as_meant + is_level
    print(f"{passed} passed, {2 - passed} failed")
    return 0 if passed == 2 else 1


if __name__ == "__main__":
    sys.exit(main())
