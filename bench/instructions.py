#!/usr/bin/env python3
"""Counts by valgrind, whose counts no other work changes, what calls take: instructions of the store's calls in C
(store.c), instructions and allocations of a round of the Rust package (rust/examples/rounds.rs), and the instructions
of a replay by those of an earlier build's, for each kind of script.

usage: instructions.py [--store FILE] [--library FILE] [--figures] [store-calls] [package-round]
       instructions.py --old PROGRAM [--program PROGRAM] [--figures] replays|labels|many-layers|plain-lines|compact-heads

With no name the first two are counted. FILE are the libraries that `rt lib` leaves in crates/span_store_ffi and
crates/span_ffi, PROGRAM the tracerun of the earlier build, and that of this checkout if it isn't given: for `replays`
the one before lines shared metas, for `labels` the one before labels bound lately were known, for `many-layers` the
one before notes took the texts of those before them, for `plain-lines` the one before lines without escapes were read
without an index, for `compact-heads` the one before heads of compact texts were written by fewer copies and empty lines
passed over. With --figures the counts go to bench/figures/NAME.json, from where tests/figures.py takes them to the pages.
"""
import argparse
import os
import re
import subprocess
import sys
import tempfile
from pathlib import Path

HERE = Path(__file__).resolve().parent
TOP = HERE.parent
sys.path.insert(0, str(TOP / "tests"))

import c_interface  # noqa: E402
import figures  # noqa: E402
import scripts  # noqa: E402

SPANS = 10_000  # of store.c
# Of each figure the words of store.c, and the functions whose instructions count.
CALLS = {
    "add": ([], ["add"]), "find": ([], ["find"]), "release": ([], ["release"]), "ended": ([], ["ended"]),
    "keep": (["kept"], ["keep", "release"]),
}
KINDS = {"callsite": "", "ids": "by_ids_", "span": "span_"}  # of rounds, and what their figures' names begin with
OF_REPLAYS = ("replays", "labels", "many-layers", "plain-lines", "compact-heads")
FEW, MANY = 1_000, 3_000  # rounds: what the start takes is in both
SIZE = 131_072  # bytes of a script


def counted(tool, pattern, words, given=""):
    """What valgrind counted in a run of a program, which gets a text on its standard input."""
    done = subprocess.run(["valgrind", *tool, *words], input=given, capture_output=True, text=True, check=True)
    return int(re.search(pattern, done.stderr)[1].replace(",", ""))


def instructions(words, functions=(), given=""):
    """Those that a program takes, or that functions of it take."""
    tool = ["--tool=callgrind", "--callgrind-out-file=/dev/null", *(f"--toggle-collect={name}" for name in functions)]
    return counted(tool, r"Collected : (\d+)", words, given)


def allocations(words):
    return counted(["--tool=memcheck"], r"total heap usage: ([\d,]+) allocs", words)


def store_calls(library, folder):
    """The instructions of each call of the store."""
    program = c_interface.built(library, HERE / "store.c", folder / "store", ["-O2"])
    if program is None:
        sys.exit("instructions.py: store.c was not built")
    return {name: instructions([program, *words], [f"span_store_{it}" for it in functions]) / SPANS
            for name, (words, functions) in CALLS.items()}


def package_rounds(library, folder):
    """The instructions and allocations of a round of each kind."""
    places = {**os.environ, "SPAN_REGISTRY_LIB": str(library.resolve().parent), "CARGO_TARGET_DIR": str(folder)}
    words = ["cargo", "build", "--quiet", "--release", "--offline", "--example", "rounds"]
    subprocess.run(words, cwd=TOP / "rust", env=places, check=True)
    found = {}
    for kind, begins in KINDS.items():
        runs = [[folder / "release/examples/rounds", kind, str(rounds)] for rounds in (FEW, MANY)]
        for count in (instructions, allocations):
            few, many = map(count, runs)
            found[begins + count.__name__] = (many - few) / (MANY - FEW)
    return found


def replays(old, program):
    """The instructions of a replay by those of another program's, for each kind of script: the least and the most."""
    found = {}
    for kind, script in scripts.ALL.items():
        now, before = (instructions([it, "replay"], given=script(SIZE)) for it in (program, old))
        found[kind] = now / before
    return {"least": min(found.values()), "most": max(found.values()), **found}


def main():
    parser = argparse.ArgumentParser(description=__doc__, formatter_class=argparse.RawDescriptionHelpFormatter)
    parser.add_argument("names", nargs="*", metavar="NAME", help="store-calls, package-round; none means both")
    parser.add_argument("--store", type=Path, default=TOP / "crates/span_store_ffi/out/libspan_store_ffi.a")
    parser.add_argument("--library", type=Path, default=TOP / "crates/span_ffi/out/libspan_ffi.a")
    parser.add_argument("--old", type=Path, metavar="PROGRAM")
    parser.add_argument("--program", type=Path, default=TOP / "crates/tracerun/out/tracerun")
    parser.add_argument("--figures", action="store_true", help="they go to bench/figures")
    asked = parser.parse_args()
    if len(asked.names) == 1 and asked.names[0] in OF_REPLAYS and asked.old:
        return tell(asked.names[0], replays(asked.old, asked.program), asked.figures)
    counts = {"store-calls": (store_calls, asked.store), "package-round": (package_rounds, asked.library)}
    if not counts.keys() >= set(asked.names):
        parser.error(f"there are {' and '.join(counts)}, and with --old one of {', '.join(OF_REPLAYS)}")
    for name in asked.names or counts:
        count, library = counts[name]
        with tempfile.TemporaryDirectory() as folder:
            values = count(library, Path(folder))
        tell(name, values, asked.figures)


def tell(name, values, keeps):
    print(name, *(f"{it} {value:,.2f}" for it, value in values.items()), sep="\n  ")
    if keeps:
        figures.record(name, values=values)


if __name__ == "__main__":
    main()
