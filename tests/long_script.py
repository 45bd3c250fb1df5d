#!/usr/bin/env python3
"""Runs the built tracerun on a script as long as one may be, and compares what it writes with what the model says.

The script has 16 MiB of calls: all operations, six layers, five workers, slots that are used again until they are
retired, and refusals of every kind. It is the same for the same seed. The model runs each line as it is made, so that
the script is without faults. Standard output, standard error and the status have to be the same, byte for byte.

usage: long_script.py [--program FILE] [--seed N] [--mib N]
       long_script.py --make FOLDER [--seed N] [--mib N]
       long_script.py --made FOLDER [--program FILE]

With --make it makes the script and has the model run it, which takes most of the time and no program, and leaves both in
the new folder FOLDER. With --made it takes them from there.
The last line is 'N passed, M failed'; the status is 0 where nothing failed.
"""
import argparse
import itertools
import subprocess
import sys
import time
from collections import Counter
from pathlib import Path

import model
from dice import Dice
from random_scripts import is_built, shown
from run_cases import current_program
from script_lines import Lines
from script_texts import GOOD_NAMES, LABELS

SECONDS = 300  # after so many the program is stopped
MEBIBYTE = 1024 * 1024

LIMITS = [("slots", 44), ("last_generation", 740), ("max_count", 6), ("workers", 5)]
LAYERS = [
    [("rule", [["", "DEBUG"], ["app", "TRACE"]])],
    [("form", "json"), ("spans", 9), ("rule", [["", "WARN"], ["app::db", "TRACE"], ["app", "INFO"]])],
    [("spans", 6), ("rule", [["app", "DEBUG"], ["lib", "ERROR"]])],
    [("form", "json"), ("spans", 0), ("rule", [["é", "TRACE"], ["ap", "ERROR"]])],
    [("spans", 15), ("rule", [])],
    [("spans", 8), ("rule", [["app.", "TRACE"], ["l", "INFO"]])],
]
# As many spans are made as closed, and as many entered as left: what is open and entered stays within bounds.
WEIGHTS = {"new": 27, "clone": 9, "close": 35, "enter": 16, "exit": 19, "find": 10, "record": 9, "event": 14}
# These labels are bound again and again.
POOL = sorted({*LABELS, *GOOD_NAMES, *(f"label {n}" for n in range(16))})

REFUSALS = ["unknown", "not entered", "count full", "full", "bad name"]
ANSWERS = ["not wanted", "cloned", "entered", "again", "open", "closed", "recorded", "told"]


class LongLines(Lines):
    """Lines whose labels are those of the pool, with the same mix from the first to the last."""

    def __init__(self, dice):
        super().__init__(dice, model.OPS, 0)
        self.weights, self.workers = WEIGHTS, dict(LIMITS)["workers"]
        self.parents = {"none": 3, "null": 1, "label": 3, "id": 1}
        self.carriage_returns, self.oddness, self.tidiness = False, 0.1, 0.95

    def free_label(self):
        """A label that no span with a handle has, or nothing."""
        labels = self.replay.labels
        free = [it for it in POOL if it not in labels or self.replay.handles_of(it) == 0]
        return self.dice.pick(free) if free else None

    def next_line(self):
        op = self.dice.weighted(self.weights)
        if op == "new" and self.free_label() is None:
            op = "close"
        return self.written(self.call(op))


def make(seed, size):
    """A script of so many bytes, and the model that has run it."""
    lines = LongLines(Dice(f"long {seed}"))
    for members in [[("op", "limits"), *LIMITS], *([("op", "layer"), *it] for it in LAYERS)]:
        lines.put(lines.written(members))
    left = size - sum(len(it) + 1 for it in lines.lines)
    while True:
        line = lines.next_line()
        if len(line) >= left:
            break
        lines.put(line)
        if lines.over:
            raise AssertionError(f"the line is a fault: {line!r}")
        left -= len(line) + 1
    return b"".join(it + b"\n" for it in lines.lines) + b" " * left, lines.replay


def lacking(replay):
    """What the script should have answered and never did."""
    starts = Counter(it.split(" parent ")[0] for it in replay.written if it[0] in "=!")
    wanted = [f"! {it}" for it in REFUSALS] + [f"= {it}" for it in ANSWERS]
    return [it for it in wanted if it not in starts]


def first_difference(script, found, wanted):
    """Says where two outputs differ first, and at which line of the script."""
    calls = [it for it in model.lines_of(script) if not model.is_skipped(it)]
    answered = 0
    for number, (one, other) in enumerate(itertools.zip_longest(found.split(b"\n"), wanted.split(b"\n")), 1):
        if one != other:
            call = calls[answered] if answered < len(calls) else b"the tidying"
            return "\n".join([
                f"line {number} of the output, of the call {shown(call)}",
                f"--- the program: {shown(one) if one is not None else 'nothing'}",
                f"--- the model: {shown(other) if other is not None else 'nothing'}",
            ])
        answered += one[:2] in (b"= ", b"! ")
    return "nothing"


def difference(program, script, wanted):
    """Says what differs between what the program did and what the model says, or nothing."""
    try:
        run = subprocess.run([program, "replay"], input=script, capture_output=True, timeout=SECONDS)
    except subprocess.TimeoutExpired:
        return f"not over after {SECONDS} seconds"
    if run.stdout != wanted:
        return f"status {run.returncode}, standard output: {first_difference(script, run.stdout, wanted)}"
    if (run.returncode, run.stderr) != (0, b""):
        return f"status {run.returncode}, standard error: {shown(run.stderr)}"
    return None


class Made:
    """A script, what the program has to write, and what the script should have answered and never did."""

    def __init__(self, script, wanted, missing):
        self.script, self.wanted, self.missing = script, wanted, missing

    @classmethod
    def by_model(cls, seed, size):
        start = time.monotonic()
        script, replay = make(seed, size)
        replay.tidy()
        made = cls(script, replay.output(), lacking(replay))
        print(f"{len(model.lines_of(script))} lines, {len(script)} bytes, which mean {len(replay.written)} lines, "
              f"{len(made.wanted)} bytes; made and run by the model in {time.monotonic() - start:.0f} s")
        return made

    @classmethod
    def taken_from(cls, folder):
        """What --make left there."""
        missing = (folder / "missing").read_text().splitlines()
        return cls((folder / "script").read_bytes(), (folder / "wanted").read_bytes(), missing)

    def put_into(self, folder):
        folder.mkdir()
        (folder / "script").write_bytes(self.script)
        (folder / "wanted").write_bytes(self.wanted)
        (folder / "missing").write_text("".join(f"{it}\n" for it in self.missing))


def compare(program, made):
    """The status of a run that compares the program with what was made."""
    start = time.monotonic()
    found = difference(program, made.script, made.wanted)
    print(f"run by the program in {time.monotonic() - start:.1f} s")
    if made.missing:
        print(f"FAILED: the script has no call that answers {', '.join(made.missing)}")
    if found:
        print(f"FAILED: the program and the model differ: {found}")
    failed = bool(made.missing) + bool(found)
    print(f"{2 - failed} passed, {failed} failed")
    return 1 if failed else 0


def main():
    parser = argparse.ArgumentParser(description="Compares the built program with the model on a script of 16 MiB.")
    parser.add_argument("--program", default="", type=current_program)
    parser.add_argument("--seed", type=int, default=1)
    parser.add_argument("--mib", type=float, default=16, help="size of the script in MiB, at most 16")
    parser.add_argument("--make", type=Path, metavar="FOLDER", help="make the script alone, and leave it there")
    parser.add_argument("--made", type=Path, metavar="FOLDER", help="take the script that was made there")
    given = parser.parse_args()
    if not 0 < given.mib <= 16:
        parser.error("--mib is over 0 and at most 16")
    if given.make and given.made:
        parser.error("either --make or --made")
    size = int(given.mib * MEBIBYTE)
    if given.make:
        Made.by_model(given.seed, size).put_into(given.make)
        print("1 passed, 0 failed")
        return 0
    if not is_built(given.program):
        print("the program is not built")
        print("0 passed, 1 failed")
        return 1
    return compare(given.program, Made.taken_from(given.made) if given.made else Made.by_model(given.seed, size))


if __name__ == "__main__":
    sys.exit(main())
