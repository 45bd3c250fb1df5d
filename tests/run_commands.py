#!/usr/bin/env python3
"""Runs the commands of the pages in a copy of the sources: as they stand, or where that takes long in a shorter form.

usage: run_commands.py listed|programs|libraries|toolchain [--only WORD]

Each command that page_commands.py finds is one of these, and each of these is in a page, which `listed` looks at:
- PROGRAMS and LIBRARIES: what is run here, on the programs or the libraries that `./check` made before, the line that is
  run where it isn't the command itself, and what it has to print. A line isn't run, and that is said, where a tool that
  it needs isn't there, or the commit of the start, or Debian's sources of tracing-subscriber.
- TOOLCHAIN: what is run in a repository of one small crate, SMALL, where nothing is built; what begins with `rt` is the
  toolchain's own, and has to be a word of `rt help` too.
- BESIDE: what another part of `./check` runs.
A file's name alone is no command. With --only those are run that have the word. All four are parts of `./check`. The last
line is 'N passed, M failed'.
"""
import argparse
import os
import re
import shutil
import subprocess
import sys
import tempfile
import time
from pathlib import Path
from typing import NamedTuple

import parts
import tracing_yard
from page_commands import commands_of
from pages import TOP, read_pages

SECONDS = 600
START = "ce2d9ee"
SMALL = "span_known"
LOGIC = re.search(r"^Proved with the logic `(\w+)`", (TOP / "README.md").read_text(encoding="utf-8"), re.M)[1]
GOOD = " 0 failed\n"


class Run(NamedTuple):
    """What is run in place of a command, in bash, if it isn't run itself; what it has to print; the tools it needs."""

    line: str = ""
    prints: str = ""
    needs: str = ""


# Two checkouts with a program that only says what it was asked for.
TWO_BUILDS = Run("""for it in one other; do
    mkdir -p $ROOM/$it/crates/span_benchmark/out && cd $ROOM/$it/crates/span_benchmark/out
    printf '#!/bin/sh\\necho $1 $2\\n' > span_benchmark && chmod +x span_benchmark
done; cd $COPY; bench/run $ROOM/one $ROOM/other 3""", "| quiet | ")
TURNS = "--sizes 0.02,0.04 --runs 1 --storm-runs 1"
PROGRAMS = {
    "./tracerun replay < examples/first.jsonl": Run(prints="= 1\n= cloned\n= open\n= closed\nleft 0\n"),
    "./tracerun replay < examples/NAME": Run("for it in examples/*.jsonl; do ./tracerun replay < $it || exit; done"),
    "./tracerun replay < SCRIPT | head -n 1": Run("./tracerun replay < examples/first.jsonl | head -n 1", "= 1\n"),
    "./tracerun why < examples/leak.jsonl": Run(prints="open 2\n"),
    "./tracerun storm --workers 4 --rounds 100": Run(prints="workers 4\nrounds 100\n"),
    "./tracerun --prove": Run("./tracerun --prove 2>&1", "proved already"),
    "tracerun replay": Run("./tracerun replay < examples/request.jsonl", "left 0\n"),
    "tracerun why": Run("./tracerun why < examples/request.jsonl", "open 1\n"),
    "tracerun why --span LABEL": Run("./tracerun why --span query < examples/leak.jsonl", "open 2\n"),
    "tracerun storm --workers N --rounds M": Run("./tracerun storm --workers 2 --rounds 3", "rounds 3\n"),
    "tracerun storm --workers N --rounds 400": Run("./tracerun storm --workers 2 --rounds 400", "rounds 400\n"),
    "span_benchmark scripts|far|calls|storms|quiet SEED": Run(
        "for it in scripts far calls storms quiet; do crates/span_benchmark/out/span_benchmark $it 3 || exit; done",
        "quiet: "),
    "call_loops call-costs": Run("crates/call_loops/out/call_loops call-costs core 1 0 1 100"),
    "call_loops soak WORKERS PLACES ROUNDS SEED": Run("crates/call_loops/out/call_loops soak 2 4 1000 1", "missed 0\n"),
    "git clone . /tmp/old && git -C /tmp/old checkout ce2d9ee": Run(
        f"git clone -q {TOP} $ROOM/old && git -C $ROOM/old checkout -q {START}", needs=START),
    "cp -r bench /tmp/old/ && git -C /tmp/old checkout f8efeba1~ crates/span_benchmark": Run(
        "cp -r bench $ROOM/old/ && git -C $ROOM/old checkout -q f8efeba1~ crates/span_benchmark", needs=START),
    "grep ^span_benchmark crates.txt >> /tmp/old/crates.txt": Run(
        "grep ^span_benchmark crates.txt >> $ROOM/old/crates.txt", needs=START),
    "bench/run /tmp/old . 1": TWO_BUILDS,
    "bench/run OLD NEW [SEED]": TWO_BUILDS,
    "cargo build --release --offline --manifest-path bench/peer/Cargo.toml": Run(needs="cargo"),
    "python3 tests/run_cases.py --replay --program bench/peer/target/release/peer": Run(prints=GOOD, needs="cargo"),
    "python3 tests/random_scripts.py --replay --program bench/peer/target/release/peer --seed 1 --scripts 2000": Run(
        "python3 tests/random_scripts.py --replay --program bench/peer/target/release/peer --scripts 200", GOOD, "cargo"),
    "python3 bench/run.py --out bench/out": Run(f"python3 bench/run.py {TURNS} --out bench/out", "## Growth", "cargo"),
    "python3 bench/run.py --figures": Run(f"python3 bench/run.py {TURNS} --figures", "## Storms", "cargo"),
    "python3 bench/calls.py": Run(
        "python3 bench/calls.py --calls 1000 --runs 1 --storm-runs 1", "| 1,000,000 |", "cargo cc"),
    "python3 tests/soak.py --minutes 10": Run("python3 tests/soak.py --minutes 0.01 --storms 1", GOOD),
    "python3 bench/anew.py --list": Run(prints="bench/calls.py --figures"),
    "python3 bench/anew.py timed --old /tmp/old --plain PROGRAM": Run("python3 bench/anew.py timed --list"),
    "python3 bench/anew.py counted --before BEFORE": Run("python3 bench/anew.py counted --list"),
    "python3 tests/figures.py --write && python3 tests/pictures.py --write": Run(prints=GOOD),
    "tests/figures.py --write": Run("python3 tests/figures.py --write", GOOD),
    "tests/theorem.py --write": Run("python3 tests/theorem.py --write", GOOD),
    "tests/model_page.py --write": Run("python3 tests/model_page.py --write", GOOD),
    "python3 tests/refused_at.py EDIT..": Run(
        "python3 tests/refused_at.py crates/span_id/must-fail/pack_forgets_to_add_one.edit", "1 passed, 0 failed\n"),
}
LIBRARIES = {
    "./rust/build": Run(needs="cargo"),
    "cd rust && cargo run --release --offline --example server": Run(needs="cargo"),
    "cargo doc": Run("cd rust && cargo doc --offline --no-deps", needs="cargo"),
    "cargo fmt": Run("cd rust && cargo fmt --check", needs="cargo cargo-fmt"),
    "cargo clippy --offline --all-targets -- -D warnings": Run(
        "cd rust && cargo clippy --offline --all-targets -- -D warnings", needs="cargo cargo-clippy"),
    "cargo test --release --offline --test memory -- --ignored": Run(
        "cd rust && cargo test --release --offline --test memory -- --ignored", " 0 failed;", "cargo"),
    "SPAN_REGISTRY_SECONDS=60 cargo test --release --offline --test threads": Run(
        "cd rust && SPAN_REGISTRY_SECONDS=1 cargo test --release --offline --test threads", " 0 failed;", "cargo"),
    'cc -Iinclude program.c crates/span_ffi/out/libspan_ffi.a "$(dirname "$(rt doc)")/c/liblibc_c.a"': Run(
        'cc -Iinclude -o $ROOM/border bench/border.c crates/span_ffi/out/libspan_ffi.a "$(dirname "$(rt doc)")/c/liblibc_c.a"',
        needs="cc"),
    "python3 bench/border.py": Run(prints="| layers | ", needs="cc"),
    "python3 bench/throughput.py": Run(
        "python3 bench/throughput.py --seconds 0.1", "out of the drain alone, million a second: notes ", "cargo"),
    "bench/tracing.py instructions|proved|allocations|clock|benches": Run(
        "for it in instructions allocations clock; do python3 bench/tracing.py $it --folder $ROOM/yard --first 1 "
        "--threads 1 --turns 1 --rounds 100 || exit; done", "ns of processor", "sources valgrind"),
}
IN_SMALL = f"cd $ROOM/small/crates/{SMALL} && "
TOOLCHAIN = {
    "rt version": Run(prints=f" logic {LOGIC}\n"),
    "rt doc": Run(prints=".md\n"),
    "rt check": Run(f"{IN_SMALL}rt check", "logic=proved "),
    "rt check --only module::function": Run(f"{IN_SMALL}rt check --only KnownItems::of"),
    "rt all check --jobs 4": Run("cd $ROOM/small && rt all check --jobs 4"),
    "rt tidy": Run(f"{IN_SMALL}rt tidy"),
    "rt plant": Run(f"{IN_SMALL}rt plant --minutes 2"),
    "rt must-fail CRATE..": Run(f"cd $ROOM/small && rt must-fail {SMALL}"),
    "rt try --test": Run(
        r"rt new $ROOM/tried start_lib && cd $ROOM/tried && "
        r"printf '#[test]\nfn echoes(rt: HostRuntime) {\n    assert!(rt; echo(1) == 1);\n}\n' >> src/lib.rt && "
        "rt try --test", "1 passed; 0 failed"),
    "rt run": Run("rt new $ROOM/made start && cd $ROOM/made && rt run"),
}
GATE, (FFI, STORE_FFI) = parts.GATE.name, (it.name for it in parts.LIBRARIES.values())
LAUNCHER, RUNNER, PACKAGE = "the launcher", "the runner of the parts", "the Rust package"
UNPROVED = "the program, unproved"
TRACING = "tracing over the store and over the registry"
BESIDE = {
    "./tracerun": LAUNCHER,
    "./check": RUNNER, "./check --quick": RUNNER, "./check --anew": RUNNER, "./check CRATE..": RUNNER,
    "./view": "the pictures of scripts", "./view SCRIPT > run.html": "the pictures of scripts",
    "(cd crates/span_store_ffi && rt lib)": STORE_FFI,
    "(cd crates/span_ffi && rt lib) && (cd crates/span_store_ffi && rt lib)": FFI,
    "cd crates/two_workers && rt run": GATE, "rt ci": GATE, "rt lib": FFI, "rt try": UNPROVED,
    "(cd crates/span_benchmark && rt run) && (cd crates/call_loops && rt run) && ./tracerun --prove": GATE,
    "(cd crates/span_benchmark && rt run)": GATE,
    "./rust/test": PACKAGE,
    "rust/tracing-subscriber/lay ../tracing-subscriber": TRACING,
    "rust/tracing-subscriber/lay rust/tracing-subscriber/example/laid": TRACING,
    "cargo run --example leak": TRACING, "cargo test": TRACING,
    "cargo update -p tracing-subscriber --precise 0.3.16": TRACING,
}


def commands():
    """The commands of all pages, but for the names of files."""
    found = dict.fromkeys(it for text in read_pages().values() for it in commands_of(text))
    return [it for it in found if not re.fullmatch(r"\w[\w./{},-]*", it)]


def listed():
    """That each command is listed, once, and each that is listed is in a page."""
    named = {it.name for it in (parts.GATE, *parts.LIBRARIES.values(), *parts.PARTS, *parts.QUICK)}
    of_rt = subprocess.run(["rt", "help"], stdout=subprocess.PIPE, stderr=subprocess.STDOUT, text=True).stdout
    found = commands()
    for command in found:
        if command.startswith("rt "):
            yield re.search(rf"\b{command.split()[1]}\b", of_rt), f"rt help names no {command}"
        yield sum(command in of for of in (PROGRAMS, LIBRARIES, TOOLCHAIN, BESIDE)) == 1, f"nothing runs: {command}"
    for command in (*PROGRAMS, *LIBRARIES, *TOOLCHAIN, *BESIDE):
        yield command in found, f"no page has: {command}"
    for command, part in BESIDE.items():
        yield part in named, f"./check has no part {part}, of {command}"


def copy_sources(folder, has_built):
    """A copy of the sources with their history, where there is one, in which what was built of the crates may be seen."""
    cloned = subprocess.run(["git", "clone", "-q", "--shared", "--no-checkout", TOP, folder], capture_output=True)
    if cloned.returncode == 0:
        subprocess.run(["git", "-C", folder, "reset", "-q"], check=True)
    left_out = shutil.ignore_patterns(".git", "out", "target", "laid", "__pycache__")
    shutil.copytree(TOP, folder, ignore=left_out, dirs_exist_ok=True)
    for built in TOP.glob("crates/*/out") if has_built else ():
        (folder / built.relative_to(TOP)).symlink_to(built)


def lay_small(folder):
    """A repository of the small crate alone."""
    crate = folder / f"crates/{SMALL}"
    shutil.copytree(TOP / f"crates/{SMALL}", crate, ignore=shutil.ignore_patterns("out"))
    shutil.copy(TOP / "HANDLES", folder)
    (folder / "crates.txt").write_text(f"{SMALL}:\n", encoding="utf-8")


def lacks(run):
    """A tool that a line needs and that isn't there, if one is."""
    for need in run.needs.split():
        if need == "sources":
            is_there = tracing_yard.missing() is None
        elif need == START:
            asked = ["git", "-C", str(TOP), "cat-file", "-e", f"{START}^{{commit}}"]
            is_there = subprocess.run(asked, capture_output=True).returncode == 0
        else:
            is_there = shutil.which(need)
        if not is_there:
            return need
    return None


def fault_of(command, how, room):
    """What is wrong with how a command ends; none where all is well."""
    places = {**os.environ, **tracing_yard.LEAN, "ROOM": str(room), "COPY": str(room / "copy")}
    places.pop("CARGO_TARGET_DIR", None)  # (the peer is looked for where cargo puts it by itself)
    try:
        done = subprocess.run(["bash", "-c", how.line or command], cwd=room / "copy", env=places, timeout=SECONDS,
                              stdin=subprocess.DEVNULL, capture_output=True, text=True, errors="replace")
    except subprocess.TimeoutExpired:
        return f"not over after {SECONDS} seconds"
    if done.returncode == 0 and how.prints in done.stdout:
        return None
    return f"status {done.returncode}, wanted {how.prints!r} in\n{done.stdout[-2000:]}{done.stderr[-2000:]}"


def all_run(rows, only):
    with tempfile.TemporaryDirectory(prefix="commands-") as made:
        room = Path(made)
        copy_sources(room / "copy", rows is not TOOLCHAIN)
        lay_small(room / "small")
        for command, how in rows.items():
            if only not in command:
                continue
            if lack := lacks(how):
                print(f"not run, as {lack} isn't there: {command}")
            else:
                begun = time.monotonic()
                fault = fault_of(command, how, room)
                print(f"{time.monotonic() - begun:5.1f} s  {command}", flush=True)
                yield fault is None, f"{command}: {fault}"


def main():
    parser = argparse.ArgumentParser(description=__doc__, formatter_class=argparse.RawDescriptionHelpFormatter)
    parser.add_argument("what", choices=["listed", "programs", "libraries", "toolchain"])
    parser.add_argument("--only", default="", metavar="WORD")
    asked = parser.parse_args()
    passed = failed = 0
    rows = {"programs": PROGRAMS, "libraries": LIBRARIES, "toolchain": TOOLCHAIN}.get(asked.what)
    for is_good, said in all_run(rows, asked.only) if rows else listed():
        passed, failed = passed + bool(is_good), failed + (not is_good)
        if not is_good:
            print(f"FAILED {said}", flush=True)
    print(f"{passed} passed, {failed} failed")
    return 1 if failed else 0


if __name__ == "__main__":
    sys.exit(main())
