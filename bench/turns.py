#!/usr/bin/env python3
"""Runs one command of several programs by turns, and prints what each takes.

    turns.py [--runs N] [--input FILE] PROGRAM,PROGRAM.. [WORD..]

Of each program the least user and system seconds of the runs, the greatest peak memory and the fewest page faults; the
ratios are to the first program. What they write has to be the same, or the script ends with status 1.
"""
import argparse
import os
import sys

from measure import become_parent_of_orphans, run_once


def told(name, runs, first):
    """The row of one program, beside the runs of the first one."""
    user, cpu = min(run.user for run in runs), min(run.cpu for run in runs)
    peak, faults = max(run.peak for run in runs), min(run.faults for run in runs)
    ratio = user / max(min(run.user for run in first), 1e-6)
    return f"| {name} | {user:.3f} | {cpu:.3f} | {ratio:.2f} | {peak / 1e6:.1f} | {faults:,} |"


def by_turns(words):
    """The runs of each program; every other turn begins with the last one."""
    runs = {name: [] for name in words.programs.split(",")}
    for turn in range(words.runs):
        for name in list(runs) if turn % 2 == 0 else reversed(list(runs)):
            run = run_once([name, *words.words], words.input)
            if run.status != 0:
                sys.exit(f"turns.py: {name} ended with status {run.status}: {run.error}")
            runs[name].append(run)
    return runs


def main():
    parser = argparse.ArgumentParser(description=__doc__, formatter_class=argparse.RawDescriptionHelpFormatter)
    parser.add_argument("--runs", type=int, default=9)
    parser.add_argument("--input", default=os.devnull)
    parser.add_argument("programs")
    parser.add_argument("words", nargs=argparse.REMAINDER)
    words = parser.parse_args()
    become_parent_of_orphans()
    runs = by_turns(words)
    print("| program | user s | CPU s | ratio | peak MB | page faults |\n|---|---:|---:|---:|---:|---:|")
    for name, of_program in runs.items():
        print(told(name, of_program, next(iter(runs.values()))), flush=True)
    if len({run.sum for of_program in runs.values() for run in of_program}) != 1:
        sys.exit("turns.py: they write different texts")


if __name__ == "__main__":
    main()
