#!/usr/bin/env python3
"""Measures calls a second of 1, 2 and 4 threads, with no layer and with one, where nobody reads and beside a writer: of
the package in rust/, and of the same registry in plain Rust behind one `Mutex` (rust/examples/throughput.rs). Then how
many of one thread's calls are refused beside a writer, and how many notes a second come out of the drain alone
(rust/examples/keeps_up.rs).

    bench/throughput.py [--library libspan_ffi.a] [--runs N] [--seconds S] [--figures]

builds both against the library of `./rust/build`, and prints a table in Markdown; with --figures it goes to
bench/figures/throughput.json. All take turns, and the best of each counts, but of refused calls the most, and of calls
beside the writer the least. S is for how long one thread's calls are made; on a quiet machine.
"""
import argparse
import re
import sys
from pathlib import Path

TOP = Path(__file__).resolve().parent.parent
sys.path.insert(0, str(TOP / "tests"))

import figures  # noqa: E402
from border import LIBRARY, said_by_example  # noqa: E402

ROW = re.compile(r"^ *(\d+) +(\d+) (nobody|a writer) +([\d.]+) +([\d.]+) +[\d.]+$", flags=re.M)
BESIDE = re.compile(r"^layers (\d+): ([\d.]+) million .*, refused (\d+)$", flags=re.M)
ALONE = re.compile(r"^(notes|notes_into|lines): ([\d.]+) million ", flags=re.M)
READING = {"notes": "notes", "notes_into": "notes into one", "lines": "lines"}


def rows_of(said):
    """Million calls a second of the package and of plain Rust, by layers, threads and who reads."""
    return {(int(layers), int(threads), reading): (float(package), float(plain))
            for layers, threads, reading, package, plain in ROW.findall(said)}


def values_of(said):
    """What a run of keeps_up.rs says, by names."""
    values = {name: float(million) for name, million in ALONE.findall(said)}
    for layers, million, refused in BESIDE.findall(said):
        values[f"beside_{layers}"], values[f"refused_{layers}"] = float(million), int(refused)
    return values


def best_of(name):
    """Which of several runs counts."""
    return max if name in READING or name.startswith("refused") else min


def measured(library, runs, seconds):
    """The rows, and the values by their names."""
    of_rows, of_values = [], []
    for _ in range(runs):
        of_rows.append(rows_of(said_by_example(library, "throughput")))
        of_values.append(values_of(said_by_example(library, "keeps_up", str(seconds))))
    rows = []
    for layers, threads, reading in of_rows[0]:
        package, plain = map(max, zip(*(run[layers, threads, reading] for run in of_rows)))
        rows.append({"layers": layers, "threads": threads, "reading": reading, "package": package, "plain": plain,
                     "ratio": round(package / plain, 3)})
    values = {name: best_of(name)(run[name] for run in of_values) for name in of_values[0]}
    return rows, {**values, "least_ratio": min(row["ratio"] for row in rows), "seconds": seconds}


def with_values(rows, values):
    """The rows of the file, so that one table has all: one thread's beside a writer with its refused calls, and at the
    end the drain's, which no thread calls."""
    for row in rows:
        is_its = (row["threads"], row["reading"]) == (1, "a writer")
        yield {**row, "refused": values[f"refused_{row['layers']}"]} if is_its else row
    for name, what in READING.items():
        yield {"layers": 1, "threads": 0, "reading": f"the drain alone, {what}", "package": values[name]}


def show(rows, values):
    print("| layers | threads | reading | package | plain Rust | package / plain Rust |")
    print("|---:|---:|---|---:|---:|---:|")
    for row in rows:
        print("| {layers} | {threads} | {reading} | {package:.2f} | {plain:.2f} | {ratio:.2f} |".format(**row))
    for layers in (0, 1):
        million, refused = values[f"beside_{layers}"], values[f"refused_{layers}"]
        print(f"one thread beside a writer, layers {layers}: {million:.2f} million calls a second for "
              f"{values['seconds']:g} s, refused {refused}")
    print("out of the drain alone, million a second: "
          + ", ".join(f"{what} {values[name]:.2f}" for name, what in READING.items()))


def main():
    parser = argparse.ArgumentParser(description=__doc__, formatter_class=argparse.RawDescriptionHelpFormatter)
    parser.add_argument("--library", type=Path, default=LIBRARY, help="the static library to measure")
    parser.add_argument("--runs", type=int, default=1, metavar="N")
    parser.add_argument("--seconds", type=float, default=10, metavar="S")
    parser.add_argument("--figures", action="store_true", help="they go to bench/figures")
    asked = parser.parse_args()
    if not asked.library.exists():
        sys.exit(f"throughput: there is no {asked.library}: ./rust/build makes it")
    rows, values = measured(asked.library, asked.runs, asked.seconds)
    show(rows, values)
    if asked.figures:
        how = f", the best of {asked.runs} runs, of refused calls the most" if asked.runs > 1 else ""
        figures.record("throughput", with_values(rows, values), values, how=how)


if __name__ == "__main__":
    main()
