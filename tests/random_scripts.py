#!/usr/bin/env python3
"""Runs the built tracerun on random scripts and compares what it does with what the model says, byte for byte.

Standard output, standard error and the status have to be the same, of `replay` and of `why`, about all spans and about
one. A script on which they differ is made as small as it can be and shown with both. The scripts are the same for the
same seed.

usage: random_scripts.py [--program FILE] [--seed N] [--scripts N] [--seconds N] [--replay]
With --replay nothing is asked of `why`. The last line is 'N passed, M failed': the scripts that agreed and those that differed. The status is 0 where none
differed.
"""
import argparse
import os
import subprocess
import sys
import time

import model
import model_why
import script_maker
import shrink
from run_cases import current_program

SECONDS = 20  # after so many the program is stopped
MOST_SHOWN = 3  # so many differences are shown; later ones are counted

# The words with which a script is run, and the model of it.
REPLAY = (["replay"], model.run)
ORDERS = [
    REPLAY,
    (["why"], model_why.why),
    (["why", "--span", "a"], lambda script: model_why.why(script, "a")),
]


def run_program(program, script, words=REPLAY[0]):
    """Standard output, standard error and the status."""
    try:
        run = subprocess.run([program, *words], input=script, capture_output=True, timeout=SECONDS)
    except subprocess.TimeoutExpired:
        return b"", f"not over after {SECONDS} seconds".encode(), None
    return run.stdout, run.stderr, run.returncode


def differs(program, script, order=REPLAY):
    words, meant = order
    return run_program(program, script, words) != meant(script)


def shown(data):
    """The bytes as text; what isn't plain is escaped."""
    text = data.decode("utf-8", "backslashreplace")
    return "".join(it if it == "\n" or it.isprintable() else ascii(it)[1:-1] for it in text)


def show(what, result):
    output, error, status = result
    print(f"--- {what}: status {status}, standard error: {shown(error).strip() or 'nothing'}; standard output:")
    print(shown(output), end="" if output.endswith(b"\n") else "\n")


def report(program, script, name, order):
    """Shows the smallest script that was found on which the two differ, and what each says."""
    words, meant = order
    small = shrink.smallest(script, lambda it: differs(program, it, order))
    print(f"FAILED {name}: {' '.join(words)}: the program and the model differ on this script", end=" ")
    print(f"({len(small)} bytes of {len(script)}):")
    print(shown(small), end="" if small.endswith(b"\n") else "\n")
    print(f"--- the same as Python writes it: {small!r}")
    show("the program", run_program(program, small, words))
    show("the model", meant(small))
    sys.stdout.flush()


def is_built(program):
    return os.access(program, os.X_OK)


def options():
    parser = argparse.ArgumentParser(description="Compares the built program with the model on random scripts.")
    parser.add_argument("--program", default="", type=current_program)
    parser.add_argument("--seed", type=int, default=1)
    parser.add_argument("--scripts", type=int, help="1000 where no --seconds are given, else no bound")
    parser.add_argument("--seconds", type=float, help="no script is begun after so many")
    parser.add_argument("--replay", action="store_true", help="replay alone, of a program that is no more")
    given = parser.parse_args()
    if given.scripts is None and given.seconds is None:
        given.scripts = 1000
    return given


def main():
    given = options()
    if not is_built(given.program):
        print("the program is not built")
        print("0 passed, 1 failed")
        return 1
    end = None if given.seconds is None else time.monotonic() + given.seconds
    passed = failed = 0
    while passed + failed != given.scripts and (end is None or time.monotonic() < end):
        number = passed + failed
        script = script_maker.make(given.seed, number, model.OPS)
        wrong = [order for order in (ORDERS[:1] if given.replay else ORDERS) if differs(given.program, script, order)]
        if not wrong:
            passed += 1
            continue
        failed += 1
        if failed <= MOST_SHOWN:
            report(given.program, script, f"script {number} of seed {given.seed}", wrong[0])
    print(f"{passed} passed, {failed} failed")
    return 1 if failed else 0


if __name__ == "__main__":
    sys.exit(main())
