#!/usr/bin/env python3
"""Runs the rows of `refused_memory` that run by their names alone, with each of their growths refused in turn.

They are judged as `refused_memory.py` judges the others. Of a row whose calls remember what later ones may use, as many
growths as they make for that have to cost neither a call nor a line where they alone are refused. The last line is
'N passed, M failed'.

usage: refused_calls.py [--refused-memory FILE]
"""
import argparse
import os
import subprocess
import sys
import tempfile

from refused_memory import HERE, REFUSED_MEMORY, MODES, answers, compiler, in_turn, run, used

ROWS = ["over", "texts", "latest_alone", "latest"]

# How many growths a row makes only to remember something: one each for the places of metas, of paths and of fields, and
# two for the list of the buffers of texts.
REMEMBERING = {"latest": 5}


def calls(text):
    """How many calls that may take memory a run made."""
    return text.splitlines().count(b". call")


def remembers(program, shim, row, wanted):
    """Counts the growths that alone cost neither a call nor a line. Whether they are as many as are wanted."""
    _, whole, _, _ = run([program, row], shim, 0, "alone", marked="1")
    lines = answers(whole)[1]
    spared, number, was_refused = 0, 1, True
    while was_refused:
        _, text, _, was_refused = run([program, row], shim, number, "alone", marked="1")
        spared += was_refused and (calls(text), answers(text)[1]) == (calls(whole), lines)
        number += 1
    print(f"row {row}: {spared} growths cost neither a call nor a line, {wanted} have to")
    return spared >= wanted


def main():
    parser = argparse.ArgumentParser(description=__doc__, formatter_class=argparse.RawDescriptionHelpFormatter)
    parser.add_argument("--refused-memory", default=REFUSED_MEMORY)
    program = parser.parse_args().refused_memory
    passed = failed = 0
    with tempfile.TemporaryDirectory() as folder:
        shim = os.path.join(folder, "refuse_memory.so")
        source = os.path.join(HERE, "refuse_memory.c")
        subprocess.run([compiler(), "-O1", "-shared", "-fPIC", "-nostdlib", "-o", shim, source], check=True)
        for row in ROWS:
            for mode in MODES:
                good, bad = in_turn(f"row {row}", mode, used(program, shim, row, mode))
                passed, failed = passed + good, failed + bad
        for row, wanted in REMEMBERING.items():
            remembered = remembers(program, shim, row, wanted)
            passed, failed = passed + remembered, failed + (not remembered)
    print(f"{passed} passed, {failed} failed")
    return 1 if failed else 0


if __name__ == "__main__":
    sys.exit(main())
