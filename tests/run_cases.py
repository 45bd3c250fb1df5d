#!/usr/bin/env python3
"""Runs the built tracerun on each worked case and compares what it prints, byte for byte, and its status.

A case is a group of files in tests/cases: NAME.in is the standard input, NAME.out the wanted standard output,
NAME.status the wanted status, NAME.err, where it is there, the wanted standard error, and NAME.args the words
of the command line, one a line (none: 'replay'). Large cases are made by tests/large_cases.py, those of script faults
by tests/fault_cases.py.
The cases that tests/to_come.txt names wait for an operation that the program doesn't have yet. They are run
too, and one that already passes is a failure: its line has to go.

usage: run_cases.py [--program FILE] [--replay] [NAME..]
The last line is 'N passed, M failed'; the status is 0 where nothing failed.
"""
import argparse
import os
import subprocess
import sys

import fault_cases
import large_cases
from worked_case import Case

HERE = os.path.dirname(os.path.abspath(__file__))
TOP = os.path.dirname(HERE)
PROGRAM = os.path.join(TOP, "crates", "tracerun", "out", "tracerun")  # the proved one
SECONDS = 120


def current_program(path):
    """The program at the path; with none the proved one, where it is current."""
    launcher = [os.path.join(TOP, "tracerun"), "--program"]
    return path or subprocess.run(launcher, stdout=subprocess.PIPE, universal_newlines=True).stdout.strip()


def read(path, default=None):
    if default is not None and not os.path.exists(path):
        return default
    with open(path, "rb") as file:
        return file.read()


def file_cases(folder):
    names = sorted(it[:-3] for it in os.listdir(folder) if it.endswith(".in"))
    for name in names:
        base = os.path.join(folder, name)
        words = read(base + ".args", b"replay\n").decode().splitlines()
        error = read(base + ".err") if os.path.exists(base + ".err") else None
        status = int(read(base + ".status", b"0").decode())
        yield Case(name, [it for it in words if it], read(base + ".in"), read(base + ".out"), error, status)


def shown(data):
    text = data.decode("utf-8", "replace")
    return text if len(text) <= 2000 else text[:2000] + " [..]"


def difference(program, case):
    """Says what differs between what the program did and what the case wants, or nothing."""
    try:
        run = subprocess.run([program, *case.words], input=case.script, capture_output=True, timeout=SECONDS)
    except subprocess.TimeoutExpired:
        return f"not over after {SECONDS} seconds"
    if run.returncode != case.status:
        return f"status {run.returncode}, wanted {case.status}; standard error: {shown(run.stderr)}"
    if run.stdout != case.output:
        return f"standard output\n{shown(run.stdout)}wanted\n{shown(case.output)}"
    if case.error is not None and run.stderr != case.error:
        return f"standard error\n{shown(run.stderr)}wanted\n{shown(case.error)}"
    return None


def waiting_names():
    lines = read(os.path.join(HERE, "to_come.txt"), b"").decode().splitlines()
    return {it.split("#")[0].strip() for it in lines} - {""}


def main():
    parser = argparse.ArgumentParser(description="Runs the worked cases against the built program.")
    parser.add_argument("--program", default="", type=current_program)
    parser.add_argument("--replay", action="store_true", help="those of replay alone, for a program that is no more")
    parser.add_argument("names", nargs="*")
    given = parser.parse_args()

    if not given.program:
        print("the program is not built")
        print("0 passed, 1 failed")
        return 1

    waiting = waiting_names()
    passed = failed = 0
    seen = set()
    for case in [*file_cases(os.path.join(HERE, "cases")), *large_cases.cases(), *fault_cases.cases()]:
        seen.add(case.name)
        if given.names and case.name not in given.names or given.replay and case.words != ["replay"]:
            continue
        found = difference(given.program, case)
        if case.name in waiting:
            if found is None:
                failed += 1
                print(f"FAILED {case.name}: it passes, so its line in tests/to_come.txt has to go")
        elif found is None:
            passed += 1
        else:
            failed += 1
            print(f"FAILED {case.name}: {found}")
    for name in sorted(waiting - seen):
        failed += 1
        print(f"FAILED {name}: tests/to_come.txt names a case that isn't there")
    if waiting:
        print(f"{len(waiting)} cases wait for what is to come (tests/to_come.txt)")
    print(f"{passed} passed, {failed} failed")
    return 1 if failed else 0


if __name__ == "__main__":
    sys.exit(main())
