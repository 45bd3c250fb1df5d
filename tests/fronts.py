#!/usr/bin/env python3
"""Cuts each worked script after each of its bytes, and compares what the built program does with what the model says.

usage: fronts.py [--program FILE] [NAME..]
The scripts are those of the worked cases in tests/cases. Standard output, standard error and the status have to be
the same for each front. The last line is 'N passed, M failed'; the status is 0 where nothing failed.
"""
import argparse
import os
import sys

import model
from random_scripts import differs, is_built, show, shown, run_program
from run_cases import HERE, current_program, file_cases

MOST_SHOWN = 3  # so many differences are shown; later ones are counted


def fronts_of(script):
    return (script[:length] for length in range(len(script) + 1))


def report(program, name, front):
    print(f"FAILED {name}, cut after {len(front)} bytes: the program and the model differ on this script:")
    print(shown(front))
    show("the program", run_program(program, front))
    show("the model", model.run(front))
    sys.stdout.flush()


def main():
    parser = argparse.ArgumentParser(description="Compares the built program with the model on the fronts of scripts.")
    parser.add_argument("--program", default="", type=current_program)
    parser.add_argument("names", nargs="*", help="worked cases; none means all")
    given = parser.parse_args()
    if not is_built(given.program):
        print("the program is not built")
        print("0 passed, 1 failed")
        return 1
    cases = [it for it in file_cases(os.path.join(HERE, "cases")) if it.words == ["replay"]]
    passed = failed = 0
    tried = set()
    for case in cases:
        if given.names and case.name not in given.names:
            continue
        for front in fronts_of(case.script):
            if front in tried:
                continue
            tried.add(front)
            if not differs(given.program, front):
                passed += 1
                continue
            failed += 1
            if failed <= MOST_SHOWN:
                report(given.program, case.name, front)
    print(f"{passed} passed, {failed} failed")
    return 1 if failed else 0


if __name__ == "__main__":
    sys.exit(main())
