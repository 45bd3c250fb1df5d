#!/usr/bin/env python3
"""A long run: storms one after the other, and then random calls by 8 threads on one registry, beside a slow reader
behind a ring of 4 places, where a call that is refused for want of a place is made again. No part of ./check.

usage: soak.py [--minutes M] [--storms N] [--program FILE] [--call-loops FILE] [--seed S] [--figures]
FILE is tracerun for the storms, and the program of the crate `call_loops` for the calls. How many calls make a run of so many
minutes is found by a short run first. The numbers at the end have to agree, and the most bytes that the program had taken
and not given back may be MARGIN more in the whole run than in its first minute (its first half, where it has less than
two minutes): `count_memory.c`, loaded before the C library, counts them. The resident size of each minute is shown and
not judged, as the C library keeps what was given back. With --figures what a good run has of numbers goes to
bench/figures/long-run.json, from where figures.py takes it to the pages. The last line is 'N passed, M failed'; the
status is 0 where nothing failed.
"""
import argparse
import os
import re
import struct
import subprocess
import sys
import tempfile
import time

import figures
from random_scripts import is_built
from refused_memory import compiler
from run_cases import PROGRAM, TOP
from storms import ends_well, start

CALL_LOOPS = os.path.join(TOP, "crates", "call_loops", "out", "call_loops")
WORKERS, PLACES = 8, 4
SHORT_ROUNDS = 200000
MARGIN = 65536
COUNTS = struct.Struct("qq")
NAMES = ["calls", "made", "closed", "left", "handles", "entries", "notes", "lines", "missed"]


def counting(folder):
    """What counts a program's memory, made in a folder."""
    shim, source = os.path.join(folder, "count_memory.so"), os.path.join(TOP, "tests", "count_memory.c")
    subprocess.run([compiler(), "-O1", "-shared", "-fPIC", "-nostdlib", "-o", shim, source], check=True)
    return shim


def taken(counts):
    """The most bytes that a program had taken so far and not given back."""
    with open(counts, "rb") as file:
        return COUNTS.unpack(file.read(COUNTS.size))[1]


def resident(pid):
    """The memory in kB of a run of the project's own program, which this script started; None where it has ended."""
    try:
        with open(f"/proc/{pid}/status", encoding="ascii") as file:
            found = re.search(r"^VmRSS:\s+(\d+) kB$", file.read(), re.MULTILINE)
    except OSError:
        return None
    return int(found[1]) if found else None


class Run:
    """One run of the program: its seconds, its memory at each second or so, its status and what it wrote."""

    def __init__(self, program, rounds, seed, every):
        words = [program, "soak", str(WORKERS), str(PLACES), str(rounds), str(seed)]
        with tempfile.TemporaryDirectory() as folder:
            counts = os.path.join(folder, "counts")
            given = dict(os.environ, LD_PRELOAD=counting(folder), COUNTS=counts)
            with open(counts, "wb") as file:
                file.write(bytes(COUNTS.size))
            began = time.monotonic()
            running = subprocess.Popen(
                words, stdin=subprocess.DEVNULL, stdout=subprocess.PIPE, stderr=subprocess.PIPE, env=given
            )
            # Of each: the second, the most bytes taken until then, and the resident size in kB.
            self.samples = []
            try:
                while running.poll() is None:
                    self.samples.append((time.monotonic() - began, taken(counts), resident(running.pid) or 0))
                    time.sleep(every)
            finally:
                running.kill()
            self.seconds = time.monotonic() - began
            self.most = taken(counts)
        self.output, self.error = (text.decode() for text in running.communicate())
        self.status = running.returncode

    def numbers(self):
        """The numbers by name; none where the text isn't the one that is wanted."""
        wanted = "".join(rf"{name} (\d+)\n" for name in NAMES)
        found = re.fullmatch(wanted, self.output)
        return dict(zip(NAMES, map(int, found.groups()))) if found else {}

    def refused(self):
        """How often a call was refused for want of a place."""
        found = re.fullmatch(r"(\d+) times no place\n", self.error)
        return int(found[1]) if found else None

    def by_minute(self):
        """The greatest resident size of each minute."""
        peaks = {}
        for at, _, size in self.samples:
            peaks[int(at / 60)] = max(peaks.get(int(at / 60), 0), size)
        return [peaks[minute] for minute in sorted(peaks)]

    def most_at_first(self):
        """The most bytes taken in the first minute, or in the first half."""
        part = min(60, self.seconds / 2)
        return max((most for at, most, _ in self.samples if at < part), default=0)


def faults(run, rounds):
    """What is wrong with the end of a run: nothing may be lost, left or held."""
    numbers = run.numbers()
    if run.status != 0 or not numbers or run.refused() is None:
        yield f"status {run.status}, standard output\n{run.output}standard error\n{run.error}"
        return
    wanted = {"closed": numbers["made"], "left": 0, "handles": 0, "entries": 0, "lines": numbers["notes"], "missed": 0}
    for name, number in wanted.items():
        if numbers[name] != number:
            yield f"{name} is {numbers[name]} and not {number}"
    if numbers["calls"] < WORKERS * rounds:
        yield f"{numbers['calls']} calls of {WORKERS} workers, which made {rounds} and gave all back"


def is_level(run):
    first = run.most_at_first()
    print(f"memory: at most {first} bytes at first, {run.most} in all; resident by minute, kB: {run.by_minute()}")
    return 0 < first and run.most <= first + MARGIN


def told(name, found):
    for fault in found:
        print(f"FAILED {name}: {fault}")
    return not found


def record(run, numbers):
    row = {"minutes": run.seconds / 60, "beside": "beside a line reader", "calls": numbers["calls"],
           "calls_a_second": numbers["calls"] / run.seconds, "spans": numbers["made"], "notes": numbers["notes"],
           "refused": run.refused(), "most": run.most, "first_minute": run.most_at_first()}
    figures.record("long-run", [row])


def soaked(program, minutes, seed, keeps):
    """Whether each part of the long run went well."""
    short = Run(program, SHORT_ROUNDS, seed, 0.01)
    yield told("the short run", list(faults(short, SHORT_ROUNDS)))
    rounds = max(SHORT_ROUNDS, int(SHORT_ROUNDS * minutes * 60 / short.seconds))
    run = Run(program, rounds, seed, 1)
    is_good, stays_level, numbers = told("the long run", list(faults(run, rounds))), is_level(run), run.numbers()
    yield is_good
    yield told("the long run", [] if stays_level else ["its memory grew"])
    if keeps and is_good and stays_level:
        record(run, numbers)
    if numbers:
        calls = numbers["calls"]
        print(f"{run.seconds / 60:.1f} minutes, {rounds} rounds, {calls} calls, {calls / run.seconds:.0f} a second, "
              f"{numbers['made']} spans, {numbers['notes']} notes, {run.refused()} times no place")


def main():
    parser = argparse.ArgumentParser(description="A long run of storms and random calls.")
    parser.add_argument("--minutes", type=float, default=1)
    parser.add_argument("--storms", type=int, default=20)
    parser.add_argument("--program", default=PROGRAM)
    parser.add_argument("--call-loops", default=CALL_LOOPS)
    parser.add_argument("--seed", type=int, default=1)
    parser.add_argument("--figures", action="store_true")
    given = parser.parse_args()
    if not os.access(given.call_loops, os.X_OK) or (given.storms and not is_built(given.program)):
        print("the programs are not built: cd crates/call_loops && rt run")
        print("0 passed, 1 failed")
        return 1
    ended = [ends_well(start(given.program), f"storm {number}") for number in range(given.storms)]
    ended += soaked(given.call_loops, given.minutes, given.seed, given.figures)
    print(f"{sum(ended)} passed, {len(ended) - sum(ended)} failed")
    return 0 if all(ended) else 1


if __name__ == "__main__":
    sys.exit(main())
