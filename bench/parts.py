#!/usr/bin/env python3
"""Measures calls a second over 1 to 8 threads: of the package in rust/ with one lock and in four parts, of the same
registry in plain Rust behind one `Mutex` and with a lock for each thread, and of tracing-subscriber's `Registry`.

    bench/parts.py [--library libspan_ffi.a] [--turns N] [--figures]

builds bench/parts and prints a table; with --figures it goes to bench/figures/parts.json, of which tests/pictures.py
draws docs/pictures/parts.svg. All take turns, and the best of each counts. What is needed is what tests/tracing.py
needs, and the library of `./rust/build`; on a quiet machine.
"""
import argparse
import os
import shutil
import subprocess
import sys
import tempfile
from pathlib import Path

TOP = Path(__file__).resolve().parent.parent
sys.path.insert(0, str(TOP / "tests"))

import figures  # noqa: E402
import tracing_yard  # noqa: E402

WHOSE = ["package", "parts", "plain", "plains", "real"]
LAYERS = [0, 1]
THREADS = range(1, 9)
# Within one run of the program, between which the others have theirs.
TURNS_OF_A_RUN = 20


def built(folder, library, jobs):
    """The program, built in a copy of what it stands on."""
    yard = tracing_yard.Yard(folder, library, jobs)
    left_out = shutil.ignore_patterns("target", "Cargo.lock")
    for name in ("rust", "bench/parts"):
        shutil.copytree(TOP / name, folder / name, dirs_exist_ok=True, ignore=left_out)
    os.environ["SPAN_REGISTRY_LIB"] = str(library.resolve().parent)
    done = yard.cargo("build", folder / "bench/parts", "--release")
    if done.returncode != 0:
        sys.exit(done.stdout)
    return folder / "target/release/parts"


def measured(program, turns):
    """For each number of layers and threads, million calls a second of each."""
    rows = [{"layers": layers, "threads": threads} for layers in LAYERS for threads in THREADS]
    for _ in range(turns):
        for row in rows:
            # The real registry has no layer of this kind.
            for whose in (it for it in WHOSE if it != "real" or row["layers"] == 0):
                words = [str(word) for word in (program, whose, row["layers"], row["threads"], TURNS_OF_A_RUN)]
                done = subprocess.run(words, capture_output=True, text=True, check=True)
                row[whose] = max(row.get(whose, 0), float(done.stdout))
    return rows


def show(rows, turns):
    print(f"million calls a second, the best of {turns * TURNS_OF_A_RUN} turns\nlayers threads {' '.join(WHOSE)}")
    for row in rows:
        print(row["layers"], row["threads"], *(f"{row[whose]:.2f}" if whose in row else "-" for whose in WHOSE))


def main():
    parser = argparse.ArgumentParser(description=__doc__, formatter_class=argparse.RawDescriptionHelpFormatter)
    parser.add_argument("--library", type=Path, default=TOP / "crates/span_ffi/out/libspan_ffi.a")
    parser.add_argument("--folder", type=Path, help="where to build; it is kept then")
    parser.add_argument("--jobs", type=int, default=2)
    parser.add_argument("--turns", type=int, default=5)
    parser.add_argument("--figures", action="store_true", help="they go to bench/figures")
    asked = parser.parse_args()
    if lack := tracing_yard.missing():
        sys.exit(f"not run: {lack}")
    with tempfile.TemporaryDirectory() as made:
        program = built((asked.folder or Path(made)).resolve(), asked.library.resolve(), asked.jobs)
        rows = measured(program, asked.turns)
    show(rows, asked.turns)
    if asked.figures:
        figures.record("parts", rows)


if __name__ == "__main__":
    main()
