#!/usr/bin/env python3
"""Measures a round over the C interface, without a lock: a new span, an enter, an exit and a close.

Builds border.c beside this file against the static library of crates/span_ffi (`./rust/build` makes it), runs it, and
prints a table in Markdown: nanoseconds of a round, and after the plus of reading its lines. The C compiler is $CC, else
cc. With --figures the same rounds are run by the Rust package and in plain Rust (rust/examples/border), and both go to
bench/figures/border.json, and what no layer wants (rust/examples/disabled) to disabled.json, from where
tests/figures.py takes them to the pages.

usage: border.py [--library FILE] [--runs N] [--figures]

Of several runs the least counts.
"""
import argparse
import os
import re
import subprocess
import sys
import tempfile
from pathlib import Path

HERE = Path(__file__).resolve().parent
TOP = HERE.parent
sys.path.insert(0, str(TOP / "tests"))

import c_interface  # noqa: E402
import figures  # noqa: E402

LIBRARY = TOP / "crates/span_ffi/out/libspan_ffi.a"
# fields, and whether at a callsite
COLUMNS = {(0, 0): "by ids", (0, 1): "by callsite", (1, 0): "by ids, one field", (1, 1): "by callsite, one field"}
# What the example calls its rounds: how many fields they have, and their name in the file.
OF_RUST = {
    "proved, by ids": (1, "ids"), "proved, by callsite": (1, "callsite"), "proved, by spans": (1, "spans"),
    "plain Rust": (1, "plain"), "no field, by ids": (0, "ids"), "no field, by callsite": (0, "callsite"),
    "no field, plain Rust": (0, "plain"), "the same without a lock": (0, "plain_no_lock"),
}
CALLS = 4  # of a round


def said_by_example(library, name, *given):
    """What an example of the Rust package prints, which is given these words."""
    words = ["cargo", "run", "--quiet", "--release", "--offline", "--example", name, "--", *given]
    places = {**os.environ, "SPAN_REGISTRY_LIB": str(library.resolve().parent)}
    return subprocess.run(words, cwd=TOP / "rust", env=places, check=True, capture_output=True, text=True).stdout


def least(runs):
    """The least of each number that runs tell, by what it is called."""
    return {called: tuple(map(min, zip(*(run[called] for run in runs)))) for called in runs[0]}


def rounds_in_c(program):
    """Of each line that the program prints its layers, its fields and whether it is at a callsite, the cost of a round
    and that of reading."""
    told = subprocess.run([program], check=True, capture_output=True, text=True).stdout
    return {tuple(called): costs for *called, cost, reading in (map(int, line.split()) for line in told.splitlines())
            for costs in [(cost, reading)]}


def rounds_in_rust(library):
    """The same of the lines that the example prints, by their layers and their name."""
    told = re.findall(r"^(\d+) layers, (.*?) +(\d+) \+ +(\d+)$", said_by_example(library, "border"), flags=re.M)
    return {(int(layers), name): (int(cost), int(reading)) for layers, name, cost, reading in told}


def disabled(library):
    """The nanoseconds of each call that no layer wants."""
    told = re.findall(r"^(\w+)!?: ([\d.]+) ns$", said_by_example(library, "disabled"), flags=re.M)
    return {name: (float(nanoseconds),) for name, nanoseconds in told}


def record(of_c, of_rust, how):
    """The figures of each number of layers and fields, and what a call costs more by the package, and by its lock."""
    rows = {}
    for (layers, fields, at_callsite), (cost, reading) in of_c.items():
        row = rows.setdefault((layers, fields), {"layers": layers, "fields": fields})
        name = "c_callsite" if at_callsite else "c_ids"
        row.update({name: cost, f"{name}_reading": reading})
    for (layers, told), (cost, reading) in of_rust.items():
        fields, name = OF_RUST[told]
        rows[layers, fields].update({name: cost, f"{name}_reading": reading})
    bare = rows[0, 0]
    values = {"package": (bare["callsite"] - bare["c_callsite"]) / CALLS,
              "lock": (bare["plain"] - bare["plain_no_lock"]) / CALLS}
    rows = sorted(rows.values(), key=lambda row: (row["fields"], row["layers"]))
    figures.record("border", rows, values, how=how)


def main():
    parser = argparse.ArgumentParser(description=__doc__.split("\n\n")[0])
    parser.add_argument("--library", type=Path, default=LIBRARY, help="the static library to measure")
    parser.add_argument("--runs", type=int, default=1, metavar="N")
    parser.add_argument("--figures", action="store_true", help="what pages have of it goes to bench/figures")
    asked = parser.parse_args()
    library = asked.library
    if not library.exists():
        sys.exit(f"border: there is no {library}: ./rust/build makes it")
    with tempfile.TemporaryDirectory() as folder:
        program = c_interface.built(library, HERE / "border.c", Path(folder) / "border", ["-O2"])
        if program is None:
            sys.exit("border: the program was not built")
        of_c = least([rounds_in_c(program) for _ in range(asked.runs)])
    rows = {}
    for (layers, fields, at_callsite), (cost, reading) in of_c.items():
        rows.setdefault(layers, {})[fields, at_callsite] = f"{cost:,} + {reading:,}"
    print(f"| layers | {' | '.join(COLUMNS.values())} |")
    print(f"|---:|{'---:|' * len(COLUMNS)}")
    for layers, costs in rows.items():
        print(f"| {layers} | {' | '.join(costs[column] for column in COLUMNS)} |")
    if asked.figures:
        how = f", the least of {asked.runs} runs" if asked.runs > 1 else ""
        record(of_c, least([rounds_in_rust(library) for _ in range(asked.runs)]), how)
        told = least([disabled(library) for _ in range(asked.runs)])
        figures.record("disabled", values={name: it for name, (it,) in told.items()}, how=how)


if __name__ == "__main__":
    main()
