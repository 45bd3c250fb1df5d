"""Builds the C programs of tests/c against the static library of crates/span_ffi, and runs each with the sanitizers of
the C compiler and under valgrind, but the one on times as it is. The last line is 'N passed, M failed'.

The library is that of `rt lib`, which is made first where it isn't there or a source is newer, or that of --library.
The C compiler is $CC, else cc.
"""

import argparse
import os
import re
import subprocess
import sys
import tempfile
from pathlib import Path

TOP = Path(__file__).resolve().parent.parent
CRATE = TOP / "crates/span_ffi"
WARNINGS = ["-std=gnu11", "-pthread", "-Wall", "-Wextra", "-Wpedantic", "-Werror"]
# So that a program can refuse memory to the library.
WRAPS = ["-Wl,--wrap=malloc", "-Wl,--wrap=realloc"]
# (without --fair-sched a thread that waits for another may keep that one from running)
VALGRIND = ["valgrind", "--quiet", "--leak-check=full", "--error-exitcode=3", "--fair-sched=try"]
CHECKED = [
    ("with sanitizers", ["-g", "-fsanitize=address,undefined", "-fno-sanitize-recover=all"], []),
    ("under valgrind", ["-g", "-O1"], VALGRIND),
]
AT_SPEED = [("at full speed", ["-O2"], [])]
# Each program, what it is linked with, and how it runs.
PROGRAMS = [
    ("span_registry", WRAPS, CHECKED),
    ("callsites", WRAPS, CHECKED),
    ("holding", WRAPS, CHECKED),
    ("telling", WRAPS, CHECKED),
    ("notes", WRAPS, CHECKED),
    ("headings", WRAPS, CHECKED),
    ("lost_headings", WRAPS, CHECKED),
    ("strangers", [], CHECKED),
    ("million", WRAPS, AT_SPEED),
]


def shim_folder():
    """The folder of what the toolchain's libraries take from C."""
    page = subprocess.run(["rt", "doc"], check=True, capture_output=True, text=True).stdout.strip()
    return Path(page).parent / "c"


def current_library():
    """The library that `rt lib` makes, made again where a source of the repository is newer; none where that fails."""
    library = CRATE / "out/libspan_ffi.a"
    sources = [file for end in ("src/**/*.rt", "specs/**/*.antt") for file in TOP.glob(f"crates/*/{end}")]
    newest = max(file.stat().st_mtime for file in sources)
    if library.exists() and library.stat().st_mtime >= newest:
        return library
    done = subprocess.run(["rt", "lib"], cwd=CRATE, capture_output=True, text=True)
    if done.returncode != 0:
        sys.stdout.write(done.stdout + done.stderr)
    return library if done.returncode == 0 else None


def built(library, source, program, flags):
    """The program of a source, built with these flags; none where the build fails."""
    command = [os.environ.get("CC", "cc"), *WARNINGS, *flags, "-I", str(TOP / "include"), str(source),
               str(library), str(shim_folder() / "liblibc_c.a"), "-o", str(program)]
    done = subprocess.run(command, capture_output=True, text=True)
    sys.stdout.write(done.stdout + done.stderr)
    return program if done.returncode == 0 else None


def counted(name, command):
    """How many checks of a run passed and failed. A run that ends ill, or counts nothing, is a failure more."""
    done = subprocess.run(command, capture_output=True, text=True, timeout=600)
    found = re.search(r"^(\d+) passed, (\d+) failed$", done.stdout, re.MULTILINE)
    passed, failed = (int(found[1]), int(found[2])) if found else (0, 0)
    if found is None or (done.returncode != 0 and failed == 0):
        failed += 1
    print(f"{name}: {passed} passed, {failed} failed")
    if failed:
        sys.stdout.write(done.stdout + done.stderr)
    return passed, failed


def main():
    parser = argparse.ArgumentParser(description=__doc__.split("\n\n")[0])
    parser.add_argument("--library", type=Path, help="the static library to test")
    library = parser.parse_args().library or current_library()
    if library is None:
        print("0 passed, 1 failed")
        return 1
    passed = failed = 0
    with tempfile.TemporaryDirectory() as folder:
        runs = [(name, wraps, *how) for name, wraps, hows in PROGRAMS for how in hows]
        for program_name, wraps, run_name, flags, runner in runs:
            name = f"{program_name} {run_name}"
            source = TOP / f"tests/c/{program_name}.c"
            program = built(library, source, Path(folder) / name.replace(" ", "_"), [*flags, *wraps])
            if program is None:
                print(f"{name}: it was not built")
                failed += 1
                continue
            more_passed, more_failed = counted(name, [*runner, str(program)])
            passed += more_passed
            failed += more_failed
    print(f"{passed} passed, {failed} failed")
    return 0 if failed == 0 else 1


if __name__ == "__main__":
    sys.exit(main())
