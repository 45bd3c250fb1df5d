#!/usr/bin/env python3
"""Runs ./check from nothing, and keeps what that takes in bench/figures/gate.json and whole-gate.json, from where
tests/figures.py takes it to the pages.

usage: gate.py

It runs in a fresh clone of the commit that is checked out, in a temporary folder, with --anew, so that no proof of an
earlier run is taken. RT_JOBS is what is given, else as many as ./check takes. Kept are, as ./check tells them, the
minutes on the clock and of CPU of `rt ci`, of the static libraries and of the whole, and the number of edits. Where
something failed, or a proof was taken from an earlier run, nothing is kept. The status is that of ./check.
"""
import os
import re
import subprocess
import sys
import tempfile
from pathlib import Path

TOP = Path(__file__).resolve().parent.parent
sys.path.insert(0, str(TOP / "tests"))

import figures  # noqa: E402
import parts  # noqa: E402

CLOCK = r"(\d+) min (\d\d) s"
PART = re.compile(rf"(.*): \d+ passed, \d+ failed, {CLOCK}, {CLOCK} of processors$")
ALL = re.compile(rf"in all {CLOCK}, and {CLOCK} of the \d+ processors$")
KEPT = "not compared in this run"


def minutes(clock):
    return int(clock[0]) + int(clock[1]) / 60


def values_of(lines, clone):
    """The figures of a run, by what it said: of the gate and the libraries, and of the whole."""
    took = {found[1]: (minutes(found.groups()[1:3]), minutes(found.groups()[3:]))
            for found in map(PART.match, lines) if found}
    whole = next(found.groups() for found in map(ALL.match, lines) if found)
    libraries = [took[part.name] for part in parts.LIBRARIES.values()]
    ci, ci_cpu = took[parts.GATE.name]
    return {"gate": {
        "jobs": int(os.environ["RT_JOBS"]), "edits": len(list(clone.glob("crates/*/must-fail/*.edit"))),
        "ci": ci, "ci_cpu": ci_cpu,
        "libraries": sum(clock for clock, _ in libraries), "libraries_cpu": sum(cpu for _, cpu in libraries),
    }, "whole-gate": {"minutes": int(minutes(whole[:2])), "cpu": minutes(whole[2:])}}


def run_in(clone):
    """The status of ./check in a clone, and its lines."""
    places = {**os.environ, "XDG_CACHE_HOME": str(clone.parent / "cache")}
    run = subprocess.Popen([clone / "check", "--anew"], env=places, stdout=subprocess.PIPE, encoding="utf-8",
                           errors="replace")
    lines = []
    for line in run.stdout:
        print(line, end="", flush=True)
        lines.append(line.rstrip("\n"))
    return run.wait(), lines


def keep(name, values, clone):
    figures.record(name, values=values, at=clone)
    print(f"{name}: {values}")


def measured(source, keep):
    """The status of ./check in a fresh clone of a repository, whose figures are kept where all was proved."""
    os.environ.setdefault("RT_JOBS", str(parts.JOBS))
    with tempfile.TemporaryDirectory(prefix="gate-") as folder:
        os.chmod(folder, 0o755)  # (rt ci runs programs as nobody)
        clone = Path(folder) / "clone"
        subprocess.run(["git", "clone", "-q", source, clone], check=True)
        status, lines = run_in(clone)
        if status or any(line.startswith(KEPT) for line in lines):
            print("gate.py: not kept, since it failed, or didn't begin from nothing", file=sys.stderr)
            return status
        for name, values in values_of(lines, clone).items():
            keep(name, values, clone)
    return status


def main():
    if sys.argv[1:]:
        sys.exit(__doc__)
    return measured(TOP, keep)


if __name__ == "__main__":
    sys.exit(main())
