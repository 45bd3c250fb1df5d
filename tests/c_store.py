"""Builds the C programs of tests/c for the store against the static library of crates/span_store_ffi, and runs each
with the sanitizers of the C compiler and under valgrind. The last line is 'N passed, M failed'.

The library is that of `rt lib`, which is made first where it isn't there or a source is newer, or that of --library.
The C compiler is $CC, else cc. --stores says how many stores the random calls are tried on.
"""

import argparse
import subprocess
import sys
import tempfile
from itertools import product
from pathlib import Path

from c_interface import CHECKED, TOP, WRAPS, built, counted

CRATE = TOP / "crates/span_store_ffi"
# The crates that the library is made of.
BELOW = ["span_id", "span_slots", "span_store", "span_border", "span_store_ffi"]


def current_library():
    """The library that `rt lib` makes, made again where one of its sources is newer; none where that fails."""
    library = CRATE / "out/libspan_store_ffi.a"
    ends = ("src/**/*.rt", "specs/**/*.antt")
    newest = max(file.stat().st_mtime for crate in BELOW for end in ends for file in TOP.glob(f"crates/{crate}/{end}"))
    if library.exists() and library.stat().st_mtime >= newest:
        return library
    done = subprocess.run(["rt", "lib"], cwd=CRATE, capture_output=True, text=True)
    if done.returncode != 0:
        sys.stdout.write(done.stdout + done.stderr)
    return library if done.returncode == 0 else None


def main():
    parser = argparse.ArgumentParser(description=__doc__.split("\n\n")[0])
    parser.add_argument("--library", type=Path, help="the static library to test")
    parser.add_argument("--stores", type=int, default=200, help="how many stores the random calls are tried on")
    options = parser.parse_args()
    library = options.library or current_library()
    if library is None:
        print("0 passed, 1 failed")
        return 1
    # Each program, what it is linked with, and its arguments.
    programs = [
        ("span_store", WRAPS, []),
        ("span_store_strangers", [], []),
        ("span_store_random", [], [str(options.stores)]),
    ]
    passed = failed = 0
    with tempfile.TemporaryDirectory() as folder:
        for (program_name, wraps, arguments), (run_name, flags, runner) in product(programs, CHECKED):
            name = f"{program_name} {run_name}"
            source = TOP / f"tests/c/{program_name}.c"
            program = built(library, source, Path(folder) / name.replace(" ", "_"), [*flags, *wraps])
            if program is None:
                print(f"{name}: it was not built")
                failed += 1
                continue
            more_passed, more_failed = counted(name, [*runner, str(program), *arguments])
            passed += more_passed
            failed += more_failed
    print(f"{passed} passed, {failed} failed")
    return 0 if failed == 0 else 1


if __name__ == "__main__":
    sys.exit(main())
