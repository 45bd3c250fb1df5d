#!/usr/bin/env python3
"""Runs the program unproved on cases: `rt try --cases` compiles what the sources say once, and runs it on each.

usage: unproved_cases.py [--seed N] [--scripts N]

They are the worked cases, command lines, fronts of the worked scripts and random scripts with what the model says of
them, and storms, as far as `rt try` can run them: of some the output or the time is too large, and some words are no
line. Standard output and the status have to be what is wanted; standard error is not looked at. Then devices fail at
each read and write of a script in turn, of which `rt try --fail-io` tells those that end ill; this is not run where the
make of `rt` has no such word. The last line is 'N passed, M failed'.
"""
import argparse
import os
import re
import subprocess
import sys
import tempfile
from concurrent.futures import ThreadPoolExecutor
from pathlib import Path

import command_line
import fault_cases
import large_cases
import model
import script_maker
from refused_memory import SCRIPTS
from run_cases import HERE, TOP, file_cases
from storms import written

FOLDER = os.path.join(TOP, "crates", "tracerun")
MOST_BYTES = 100_000  # of a script or an output
FRONTS = 67  # of so many fronts one is tried
RUNS = 3  # so many side by side, at most
MOST_SHOWN = 10  # so many cases that end ill are shown of each run
STORMS = [(1, 1), (2, 400), (16, 25)]
LINE = re.compile(r"case=(\S+) run=(\S+)(?: status=(\d+))?(?:.*? output=(\w+))?")


def worked():
    for case in [*file_cases(os.path.join(HERE, "cases")), *large_cases.cases(), *fault_cases.cases()]:
        if len(case.script) <= MOST_BYTES:
            yield case.words, case.script, case.output, case.status


def command_lines():
    for words, (status, output, *_) in command_line.rows():
        is_of_lines = all(isinstance(it, str) and it and it == it.strip() for it in words)
        if is_of_lines:
            yield words, command_line.SCRIPT, output, status


def by_model(scripts):
    for script in scripts:
        output, _, status = model.run(script)
        yield ["replay"], script, output, status


def fronts():
    scripts = {it.script for it in file_cases(os.path.join(HERE, "cases")) if it.words == ["replay"]}
    all_fronts = sorted({script[:length] for script in scripts for length in range(len(script) + 1)})
    yield from by_model(it for it in all_fronts[::FRONTS] if len(it) <= MOST_BYTES)


def storms():
    for workers, rounds in STORMS:
        yield ["storm", "--workers", str(workers), "--rounds", str(rounds)], b"", written(workers, rounds), 0


def put_into(folders, groups):
    """Writes the cases as rt try reads them, to the folders in turn, and gives the status that each case wants."""
    wanted = [{} for _ in folders]
    all_cases = ((group, case) for group, cases in groups for case in cases)
    for number, (group, (words, script, output, status)) in enumerate(all_cases):
        place, name = number % len(folders), f"{group}-{number}"
        wanted[place][name] = status
        (folders[place] / name).write_bytes(script)
        (folders[place] / f"{name}.stdout").write_bytes(output)
        if words:
            (folders[place] / f"{name}.args").write_text("".join(f"{it}\n" for it in words), encoding="utf-8")
    return wanted


def try_program(*words, script=b""):
    rt = subprocess.run(["rt", "try", *words], cwd=FOLDER, input=script, stdout=subprocess.PIPE,
                        stderr=subprocess.STDOUT)
    return rt.returncode, rt.stdout.decode(errors="replace")


def try_cases(folder, wanted):
    """How many cases end as they should, and how many don't."""
    _, said = try_program("--cases", str(folder))
    good, ill = set(), {}
    for name, run, status, output in (it.groups() for it in map(LINE.match, said.splitlines()) if it):
        if (run, status, output) == ("ended", str(wanted.get(name)), "expected"):
            good.add(name)
        else:
            ill[name] = f"{run} status={status} output={output}"
    for name in sorted(wanted.keys() - good)[:MOST_SHOWN]:
        print(f"FAILED {name}: {ill.get(name, 'it did not run')}, wanted status {wanted[name]}")
    if len(good) < len(wanted):
        print(f"what rt try says, at its end:\n{said[-3000:]}")
    return len(good), len(wanted) - len(good)


def devices_fail():
    status, said = try_program("--fail-io", "1..", "--", "replay", script=SCRIPTS["every operation"].encode())
    if "this kit is older than --fail-io" in said:
        print("devices that fail: not run, as rt try of this make of the toolchain has no --fail-io")
        return 0, 0
    if status:
        print(f"FAILED devices that fail: status {status}: {said[-3000:]}")
    return int(status == 0), int(status != 0)


def try_all(room, groups):
    """Tries the cases in several runs side by side, each of which compiles the program, and then the devices."""
    folders = [Path(room) / str(number) for number in range(max(1, min(RUNS, len(os.sched_getaffinity(0)) - 1)))]
    for folder in folders:
        folder.mkdir()
    wanted = put_into(folders, groups)
    with ThreadPoolExecutor(len(folders)) as pool:
        yield from pool.map(try_cases, folders, wanted)
    yield devices_fail()


def main():
    parser = argparse.ArgumentParser(description=__doc__, formatter_class=argparse.RawDescriptionHelpFormatter)
    parser.add_argument("--seed", type=int, default=1)
    parser.add_argument("--scripts", type=int, default=100, help="how many random scripts")
    given = parser.parse_args()
    made = (script_maker.make(given.seed, number, model.OPS) for number in range(given.scripts))
    groups = [("worked", worked()), ("words", command_lines()), ("front", fronts()), ("random", by_model(made)),
              ("storm", storms())]
    with tempfile.TemporaryDirectory(prefix="cases-") as room:
        passed, failed = map(sum, zip(*try_all(room, groups)))
    print(f"{passed} passed, {failed} failed")
    return 1 if failed else 0


if __name__ == "__main__":
    sys.exit(main())
