#!/usr/bin/env python3
"""Runs the greatest storm of the built program many times: however its threads take turns, it ends in the same way.

usage: storms.py [--program FILE] [--times N]
One storm after another, and then two at once. Each has to write its eight lines, nothing on standard error, and end
with 0. The last line is 'N passed, M failed'; the status is 0 where nothing failed.
"""
import argparse
import subprocess
import sys

from random_scripts import is_built
from run_cases import current_program, shown

WORKERS, ROUNDS = 16, 400
SECONDS = 120


def written(workers, rounds):
    """What a storm writes. In each round a worker makes two spans by nine calls, of which the layer is told but for the
    clone and for the close that leaves a handle."""
    numbers = {
        "workers": workers,
        "rounds": rounds,
        "made": 2 * workers * rounds,
        "closed": 2 * workers * rounds,
        "calls": 9 * workers * rounds,
        "lines": 7 * workers * rounds,
        "refused": 0,
        "left": 0,
    }
    return "".join(f"{name} {number}\n" for name, number in numbers.items()).encode()


WANTED = written(WORKERS, ROUNDS)


def start(program):
    words = [program, "storm", "--workers", str(WORKERS), "--rounds", str(ROUNDS)]
    return subprocess.Popen(words, stdin=subprocess.DEVNULL, stdout=subprocess.PIPE, stderr=subprocess.PIPE)


def ends_well(running, name):
    try:
        output, error = running.communicate(timeout=SECONDS)
    except subprocess.TimeoutExpired:
        running.kill()
        running.communicate()
        print(f"FAILED {name}: not over after {SECONDS} seconds")
        return False
    if (running.returncode, output, error) == (0, WANTED, b""):
        return True
    print(f"FAILED {name}: status {running.returncode}, standard output\n{shown(output)}standard error\n{shown(error)}")
    return False


def main():
    parser = argparse.ArgumentParser(description="Runs the greatest storm many times.")
    parser.add_argument("--program", default="", type=current_program)
    parser.add_argument("--times", type=int, default=50)
    given = parser.parse_args()
    if not is_built(given.program):
        print("the program is not built")
        print("0 passed, 1 failed")
        return 1
    ended = [ends_well(start(given.program), f"storm {number}") for number in range(given.times)]
    both = [start(given.program), start(given.program)]
    ended += [ends_well(running, f"storm {place} of two at once") for place, running in enumerate(both)]
    print(f"{sum(ended)} passed, {len(ended) - sum(ended)} failed")
    return 0 if all(ended) else 1


if __name__ == "__main__":
    sys.exit(main())
