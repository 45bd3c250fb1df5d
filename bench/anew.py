#!/usr/bin/env python3
"""Measures the figures of the pages anew: each file of bench/figures, but those of past changes, is written by one
command, which stands here.

usage: anew.py [--list] [--old CHECKOUT] [--plain PROGRAM] [--before PROGRAM] KIND|NAME..

NAME is one of the files, without its end, and KIND one of
- timed: with nothing else at work;
- counted: whatever else is at work;
- fresh: in a fresh clone, on a machine that has proved nothing of it, with nothing else at work.
CHECKOUT and PROGRAM are those of bench/run: the start's checkout, and the workloads in plain Rust, which are no part of
the repository; of --before it is the tracerun of the commit beside which the file was measured. A file whose command
needs one that isn't given isn't measured, and that is said. With --list the commands are shown, with about how many minutes each
takes. tests/figures.py --write and tests/pictures.py --write then take the figures to the pages. The last line is
'N measured, M failed'.
"""
import argparse
import shlex
import subprocess
import sys
import time
from pathlib import Path
from typing import NamedTuple

TOP = Path(__file__).resolve().parent.parent


class Command(NamedTuple):
    """The files that a command writes, its kind, about how many minutes it takes, and its words."""

    names: str
    kind: str
    minutes: int
    words: str


COMMANDS = [
    Command("workloads", "timed", 3, "bench/run {old} . 7 --plain {plain} --figures"),
    Command("workloads-1", "timed", 2, "bench/run {old} . 1 --figures"),
    Command("workloads-4000000000", "timed", 2, "bench/run {old} . 4000000000 --figures"),
    Command("takes-longer", "timed", 3, "bench/dearer.py {old} --figures"),
    Command("scripts storms", "timed", 6, "bench/run.py --figures"),
    Command("calls chains", "timed", 5, "bench/calls.py --figures"),
    Command("border disabled", "timed", 4, "bench/border.py --runs 4 --figures"),
    Command("parts", "timed", 5, "bench/parts.py --figures"),
    Command("throughput", "timed", 4, "bench/throughput.py --runs 4 --figures"),
    Command("tracing-clock", "timed", 4, "bench/tracing.py clock --figures"),
    Command("tracing", "counted", 10, "bench/tracing.py instructions --figures"),
    Command("tracing-registry", "counted", 2, "bench/tracing.py proved --figures"),
    Command("store-calls package-round", "counted", 1, "bench/instructions.py --figures"),
    Command("replays", "counted", 2, "bench/instructions.py --old {before} --figures replays"),
    Command("labels", "counted", 2, "bench/instructions.py --old {before} --figures labels"),
    Command("many-layers", "counted", 2, "bench/instructions.py --old {before} --figures many-layers"),
    Command("plain-lines", "counted", 2, "bench/instructions.py --old {before} --figures plain-lines"),
    Command("compact-heads", "counted", 2, "bench/instructions.py --old {before} --figures compact-heads"),
    Command("long-run", "counted", 12, "tests/soak.py --minutes 10 --figures"),
    Command("stress stress-original", "counted", 12, "tests/tracing.py --part stress --seconds 600 --figures"),
    Command("tests-of-the-original", "counted", 6, "tests/tracing.py --part suites --figures"),
    Command("unproved-start", "fresh", 1,
            "bench/times.py unproved-start sh -c './tracerun replay < examples/first.jsonl'"),
    Command("prove", "fresh", 30, "bench/times.py prove ./tracerun --prove"),
    Command("gate whole-gate", "fresh", 90, "bench/gate.py"),
]
KINDS = list(dict.fromkeys(it.kind for it in COMMANDS))
NAMES = [name for it in COMMANDS for name in it.names.split()]


def line_of(command, given):
    """The words of a command, where all that it needs is given."""
    try:
        words = shlex.split(command.words.format(**given))
    except KeyError:
        return None
    return [sys.executable, *words] if words[0].endswith(".py") else words


def measured(command, given):
    """Whether a command was run and ended well."""
    line = line_of(command, given)
    if line is None:
        wanted = "for want of --old, --plain or --before"
        print(f"anew.py: {command.names}: not measured, {wanted}: {command.words}", flush=True)
        return False
    print(f"== {command.names}: {shlex.join(line)}", flush=True)
    begun = time.monotonic()
    status = subprocess.run(line, cwd=TOP).returncode
    print(f"== {command.names}: status {status}, {(time.monotonic() - begun) / 60:.1f} minutes", flush=True)
    return status == 0


def main():
    parser = argparse.ArgumentParser(description=__doc__, formatter_class=argparse.RawDescriptionHelpFormatter)
    parser.add_argument("names", nargs="*", metavar="KIND|NAME")
    parser.add_argument("--list", action="store_true")
    parser.add_argument("--old", metavar="CHECKOUT", type=Path)
    parser.add_argument("--plain", metavar="PROGRAM", type=Path)
    parser.add_argument("--before", metavar="PROGRAM", type=Path)
    asked = parser.parse_args()
    if unknown := set(asked.names) - {*KINDS, *NAMES}:
        parser.error(f"there is no {' and no '.join(sorted(unknown))}")
    named = {"old": asked.old, "plain": asked.plain, "before": asked.before}
    given = {name: at.resolve() for name, at in named.items() if at}
    chosen = [it for it in COMMANDS if {it.kind, *it.names.split()} & set(asked.names)]
    if asked.list:
        for it in chosen or COMMANDS:
            print(f"{it.kind:8}{it.minutes:3} min  {it.names}: {it.words}")
        return 0
    if not chosen:
        parser.error("say what: a kind or names of files; --list shows them")
    ended = [measured(it, given) for it in chosen]
    print(f"{sum(ended)} measured, {len(ended) - sum(ended)} failed")
    return 0 if all(ended) else 1


if __name__ == "__main__":
    sys.exit(main())
