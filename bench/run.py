#!/usr/bin/env python3
"""Measures tracerun beside the peer, a program in plain Rust that does the same (bench/peer), and prints tables.

Each kind of script is run at each size, by both programs in turn. `CPU` is user and system seconds together, the
least of the runs; `peak` is the most memory that stayed in RAM; a ratio is tracerun's by the peer's, which keeps
nothing, or by that of the peer that keeps its history (`kept`). All have to write the same bytes, or nothing is told.
Scripts that cost more than their size are run at an eighth of each size. Storms are runs of `storm`, by so many workers; their time is by the clock, from the start of the program to its end,
the middle one of the runs and the least one.

With --out the tables, their numbers (results.json) and pictures of them (bench/draw.py) go to a folder; with --figures
what pages have of them goes to bench/figures (tests/figures.py).

usage: run.py [--out FOLDER] [--figures] [--sizes MIB,MIB,..] [--runs N] [--storm-runs N] [--program FILE]
              [--peer FILE] [--list] [NAME..]
"""
import argparse
import datetime
import json
import os
import platform
import statistics
import subprocess
import sys
import tempfile

import draw
import tables
from measure import become_parent_of_orphans, run_once
from scripts import ALL, COSTLY

HERE = os.path.dirname(os.path.abspath(__file__))
TOP = os.path.dirname(HERE)
sys.path.insert(0, os.path.join(TOP, "tests"))

import figures  # noqa: E402

PROGRAM = os.path.join(TOP, "crates", "tracerun", "out", "tracerun")
PEER = os.path.join(HERE, "peer", "target", "release", "peer")
MEBIBYTE = 1024 * 1024
MOST_MIB = 16  # the most that a script may have
COSTLY_PART = 8
STORM = "storm"
STORM_WORKERS = (1, 2, 4, 8, 16)
STORM_ROUNDS = 400


def said(text):
    print(f"run.py: {text}", file=sys.stderr, flush=True)


def build_peer():
    """Builds the peer where cargo finds it out of date."""
    words = ["cargo", "build", "--release", "--offline", "--quiet"]
    if subprocess.run(words, cwd=os.path.join(HERE, "peer")).returncode != 0:
        sys.exit("run.py: the peer was not built")


def in_turn(commands, path, runs):
    """The runs of each command, which take turns."""
    found = {name: [] for name in commands}
    for _ in range(runs):
        for name, words in commands.items():
            run = run_once(words, path)
            if run.status != 0:
                sys.exit(f"run.py: {' '.join(words)} ended with status {run.status}: {run.error}")
            found[name].append(run)
    if len({run.sum for runs in found.values() for run in runs}) != 1:
        sys.exit(f"run.py: {' and '.join(commands)} write different texts for the script {path}")
    return found


def summary(runs):
    return {
        "cpu": min(run.cpu for run in runs),
        "clock": min(run.clock for run in runs),
        "middle_clock": statistics.median(run.clock for run in runs),
        "peak": max(run.peak for run in runs),
        "each_cpu": [round(run.cpu, 6) for run in runs],
        "each_clock": [round(run.clock, 6) for run in runs],
    }


def replay_row(programs, name, mib, runs):
    """One kind of script at one size."""
    said(f"{name}, {mib:g} MiB")
    script = ALL[name](int(mib * MEBIBYTE)).encode()
    lines, size = script.count(b"\n"), len(script)
    with tempfile.NamedTemporaryFile(suffix=".jsonl") as file:
        file.write(script)
        file.flush()
        del script
        words = {it: [path, "replay"] for it, path in programs.items()}
        words["kept"] = [programs["peer"], "replay-kept"]
        found = in_turn(words, file.name, runs)
    if not found["peer"][0].last.endswith(b"left 0\n"):
        sys.exit(f"run.py: the script {name} leaves spans open")
    row = {"kind": name, "mib": mib, "lines": lines, "size": size, "output": found["peer"][0].size}
    return {**row, **{it: summary(of_program) for it, of_program in found.items()}}


def knows_storm(program):
    return run_once([program, STORM, "--workers", "1", "--rounds", "1"]).status == 0


def storm_row(programs, workers, runs):
    said(f"{STORM}, {workers} workers")
    words = [STORM, "--workers", str(workers), "--rounds", str(STORM_ROUNDS)]
    found = in_turn({it: [path, *words] for it, path in programs.items()}, os.devnull, runs)
    row = {"workers": workers, "rounds": STORM_ROUNDS, "calls": 9 * workers * STORM_ROUNDS}
    return {**row, **{it: summary(of_program) for it, of_program in found.items()}}


def storms(programs, runs):
    """The rows of the storms, and why there are none."""
    without = [name for name, path in programs.items() if not knows_storm(path)]
    if without:
        return [], f"No storms were measured: {' and '.join(without)} has no order `{STORM}`."
    return [storm_row(programs, workers, runs) for workers in STORM_WORKERS], None


def machine():
    with open("/proc/cpuinfo") as file:
        names = [line.split(":", 1)[1].strip() for line in file if line.startswith("model name")]
    return {
        "processor": names[0] if names else platform.machine(),
        "processors": os.cpu_count(),
        "kernel": platform.release(),
        "load": os.getloadavg()[0],
        "date": datetime.datetime.now().isoformat(timespec="minutes"),
    }


def measured(words):
    programs = {"program": words.program, "peer": words.peer}
    results = {"machine": machine(), "runs": words.runs, "storm_runs": words.storm_runs, "replay": []}
    for name in [it for it in words.names or ALL if it != STORM]:
        for mib in words.sizes:
            part = COSTLY_PART if name in COSTLY else 1
            results["replay"].append(replay_row(programs, name, mib / part, words.runs))
    if not words.names or STORM in words.names:
        results["storm"], results["note"] = storms(programs, words.storm_runs)
    return results


def write(folder, results):
    os.makedirs(folder, exist_ok=True)
    with open(os.path.join(folder, "results.json"), "w") as file:
        json.dump(results, file, indent=1)
        file.write("\n")
    with open(os.path.join(folder, "tables.md"), "w") as file:
        file.write(tables.all_tables(results))
    draw.draw_all(results, folder)


def record(results):
    """The figures of each kind at its largest size, with its growth, and of the storms."""
    rows, kinds = results["replay"], tables.kinds_of(results["replay"])
    scripts = [
        {
            "kind": row["kind"], "mib": row["mib"], "lines": row["lines"], "mb_in": row["size"] / 1e6,
            "mb_out": row["output"] / 1e6, "cpu": row["program"]["cpu"], "peer_cpu": row["peer"]["cpu"],
            "cpu_ratio": tables.ratio(row, "cpu"), "peak": row["program"]["peak"] / 1e6,
            "peer_peak": row["peer"]["peak"] / 1e6, "peak_ratio": tables.ratio(row, "peak"),
            "cpu_growth": tables.growth(tables.sizes_of(rows, kind), "program", "cpu"),
            "peer_cpu_growth": tables.growth(tables.sizes_of(rows, kind), "peer", "cpu"),
        }
        for kind, row in zip(kinds, tables.largest_rows(rows))
    ]
    storms = [
        {
            "workers": row["workers"], "calls": row["calls"], "ms": row["program"]["middle_clock"] * 1e3,
            "calls_a_second": row["calls"] / row["program"]["middle_clock"],
            "peer_ms": row["peer"]["middle_clock"] * 1e3, "ratio": tables.ratio(row, "middle_clock"),
            "cpu_ms": row["program"]["cpu"] * 1e3, "peer_cpu_ms": row["peer"]["cpu"] * 1e3,
            "cpu_ratio": tables.ratio(row, "cpu"),
        }
        for row in results.get("storm", [])
    ]
    for name, of_name in (("scripts", scripts), ("storms", storms)):
        if of_name:
            figures.record(name, of_name)


def sizes_of(text):
    sizes = sorted(float(it) for it in text.split(","))
    if not all(0 < it <= MOST_MIB for it in sizes):
        raise argparse.ArgumentTypeError(f"a size is over 0 and at most {MOST_MIB} MiB")
    return sizes


def options():
    told = __doc__.partition("\nusage:")[0]
    parser = argparse.ArgumentParser(description=told, formatter_class=argparse.RawDescriptionHelpFormatter)
    parser.add_argument("names", nargs="*", metavar="NAME", help=f"kinds of scripts, or {STORM}; none means all")
    parser.add_argument("--out", metavar="FOLDER", help="where tables, numbers and pictures go")
    parser.add_argument("--figures", action="store_true", help="what pages have of it goes to bench/figures")
    parser.add_argument("--sizes", type=sizes_of, default=[1, 4, 16], metavar="MIB,..", help="default: 1,4,16")
    parser.add_argument("--runs", type=int, default=5, help="of each program for each script, default 5")
    parser.add_argument("--storm-runs", type=int, default=21, help="of each program for each storm, default 21")
    parser.add_argument("--program", default=PROGRAM, metavar="FILE", help="in place of the built tracerun")
    parser.add_argument("--peer", metavar="FILE", help="in place of the one in bench/peer, which is built before")
    parser.add_argument("--list", action="store_true", help="tells the kinds of scripts")
    words = parser.parse_args()
    unknown = [name for name in words.names if name not in ALL and name != STORM]
    if unknown:
        parser.error(f"no such kind: {', '.join(unknown)}")
    if min(words.runs, words.storm_runs) < 1:
        parser.error("at least one run")
    return words


def main():
    words = options()
    if words.list:
        for name, made in ALL.items():
            print(f"{name}: {made.__doc__}")
        return
    if words.peer is None:
        build_peer()
        words.peer = PEER
    for path in (words.program, words.peer):
        if not os.access(path, os.X_OK):
            sys.exit(f"run.py: {path} isn't there; ./tracerun --prove builds the program")
    become_parent_of_orphans()
    results = measured(words)
    print(tables.all_tables(results), end="")
    if words.out:
        write(words.out, results)
    if words.figures:
        record(results)


if __name__ == "__main__":
    main()
