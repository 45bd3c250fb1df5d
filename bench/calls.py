#!/usr/bin/env python3
"""Measures what a call of the library costs beside the peer: loops of new, enter, event, exit and close.

Each loop is run by `call_loops call-costs` (crates/call_loops) and by the peer in turn, on a registry without its lock
(`core`) and on one whose lock each call takes (`registry`), from which the time under the lock is seen. No layer has a
closure. The lines are written by a reader of the ring in the same thread, which takes them back; the peer's are
dropped. Told are nanoseconds of CPU (user and system, the least of the runs) and allocations for each call. Storms
without layers are told by the clock, the middle one of the runs. Chains of three lengths show whether time and memory
grow as the length does.

With --figures what pages have of it goes to bench/figures (tests/figures.py).

usage: calls.py [--calls N] [--runs N] [--storm-runs N] [--program FILE] [--peer FILE] [--json FILE] [--figures]
"""
import argparse
import json
import os
import shutil
import statistics
import subprocess
import sys
import tempfile

from measure import become_parent_of_orphans, run_once

HERE = os.path.dirname(os.path.abspath(__file__))
sys.path.insert(0, os.path.join(os.path.dirname(HERE), "tests"))

import figures  # noqa: E402

PROGRAM = os.path.join(os.path.dirname(HERE), "crates", "call_loops", "out", "call_loops")
PEER = os.path.join(HERE, "peer", "target", "release", "peer")
COUNTS = 9  # the descriptor to which count_memory.c writes
CALLS_A_ROUND = 5
QUIETLY = ["sh", "-c", 'exec "$0" "$@" 2> /dev/null']  # run_once takes standard error for the shell's
MOST_LINES = 4_000_000  # a loop of many layers makes fewer rounds
# layers, fields, depth
SHAPES = [(layers, 0, 1) for layers in (0, 1, 8, 64)] + [
    (0, 4, 1), (1, 4, 1), (8, 4, 1), (0, 0, 10), (1, 0, 10), (0, 0, 100), (1, 0, 100), (1, 4, 100),
]
WORKERS = (1, 2, 4, 8, 16)
STORM_ROUNDS = 400
CHAINS = (10_000, 100_000, 1_000_000)


def middle_and_least(commands, runs, told):
    """The runs of each command, which take turns: the middle and the least of what `told` says of one."""
    found = {name: [] for name in commands}
    for _ in range(runs):
        for name, words in commands.items():
            run = run_once([*QUIETLY, *words])
            if run.status != 0:
                sys.exit(f"calls.py: {' '.join(words)} ended with status {run.status}: {run.error}")
            found[name].append(told(run))
    return {name: (statistics.median(all_of), min(all_of)) for name, all_of in found.items()}


def allocations(counter, words):
    """How many allocations a command makes."""
    reading, writing = os.pipe()
    os.dup2(writing, COUNTS)
    try:
        subprocess.run(
            words, env={"LD_PRELOAD": counter}, pass_fds=[COUNTS], check=True, stdout=subprocess.DEVNULL,
            stderr=subprocess.DEVNULL,
        )
    finally:
        os.close(writing)
        os.close(COUNTS)
    with os.fdopen(reading) as pipe:
        return int(pipe.readline())


def allocations_a_call(counter, words):
    """Of the rounds alone: what the start and the standing spans allocate is in both runs."""
    few, many = ([*words, str(rounds)] for rounds in (100, 1100))
    return (allocations(counter, many) - allocations(counter, few)) / (1000 * CALLS_A_ROUND)


def loop_row(programs, counter, kind, shape, calls, runs):
    layers, fields, depth = shape
    rounds = max(1000, min(calls // CALLS_A_ROUND, MOST_LINES // (CALLS_A_ROUND * max(1, layers) * max(1, depth // 10))))
    words = {name: [*file, kind, *map(str, shape)] for name, file in programs.items()}
    times = middle_and_least(
        {name: [*of, str(rounds)] for name, of in words.items()}, runs, lambda run: run.cpu
    )
    fewer = middle_and_least({name: [*of, str(rounds // 10)] for name, of in words.items()}, runs, lambda run: run.cpu)
    row = {"kind": kind, "layers": layers, "fields": fields, "depth": depth, "rounds": rounds}
    for name in programs:
        # The start of the program and the standing spans are in both.
        row[name] = (times[name][1] - fewer[name][1]) / ((rounds - rounds // 10) * CALLS_A_ROUND) * 1e9
        row[name + " allocations"] = allocations_a_call(counter, words[name])
    return row


def storm_row(programs, workers, runs):
    words = {"program": ["storm"], "peer": ["bare-storm"]}
    found = middle_and_least(
        {name: [*file, *words[name], str(workers), str(STORM_ROUNDS)] for name, file in programs.items()},
        runs, lambda run: (run.clock, run.cpu),
    )
    return {"workers": workers, "calls": 9 * workers * STORM_ROUNDS, **{name: found[name][0] for name in programs}}


def chain_row(programs, length, runs):
    words = {name: [*file, "chain", str(length)] for name, file in programs.items()}
    found = middle_and_least(words, runs, lambda run: (run.cpu, run.peak))
    return {"length": length, **{name: found[name][1] for name in programs}}


def print_chains(rows):
    print("\n| spans | CPU s | ns a span | peak MB | peer's CPU s | ns a span | peak MB |")
    print("|---:|---:|---:|---:|---:|---:|---:|")
    for row in rows:
        parts = (
            f"{cpu:.3f} | {cpu / row['length'] * 1e9:,.0f} | {peak / 1e6:.1f}"
            for cpu, peak in (row["program"], row["peer"])
        )
        print(f"| {row['length']:,} | {' | '.join(parts)} |")


def print_loops(rows):
    print("| on | layers | fields | depth | ns a call | peer's | ratio | allocations a call | peer's |")
    print("|---|---:|---:|---:|---:|---:|---:|---:|---:|")
    for row in rows:
        print(
            f"| {row['kind']} | {row['layers']} | {row['fields']} | {row['depth']} | {row['program']:,.0f} | "
            f"{row['peer']:,.0f} | {row['program'] / row['peer']:.2f} | {row['program allocations']:.1f} | "
            f"{row['peer allocations']:.1f} |"
        )


def print_storms(rows):
    print("\n| workers | calls | ms | calls a second | peer's ms | ratio | CPU ms | peer's |")
    print("|---:|---:|---:|---:|---:|---:|---:|---:|")
    for row in rows:
        (clock, cpu), (peer_clock, peer_cpu) = row["program"], row["peer"]
        print(
            f"| {row['workers']} | {row['calls']:,} | {clock * 1e3:.1f} | {row['calls'] / clock:,.0f} | "
            f"{peer_clock * 1e3:.1f} | {clock / peer_clock:.2f} | {cpu * 1e3:.1f} | {peer_cpu * 1e3:.1f} |"
        )


def record(loops, chains):
    """The figures of each shape, on a core and on a registry, and of the longest chain."""
    rows = [
        {
            "layers": core["layers"], "fields": core["fields"], "depth": core["depth"],
            "core": core["program"], "core_ratio": core["program"] / core["peer"],
            "registry": registry["program"], "registry_ratio": registry["program"] / registry["peer"],
            "allocations": core["program allocations"], "peer_allocations": core["peer allocations"],
        }
        for core, registry in zip(loops[::2], loops[1::2])
    ]
    figures.record("calls", rows)
    longest = chains[-1]
    values = {}
    for name, of in (("", "program"), ("peer_", "peer")):
        cpu, peak = longest[of]
        values.update({f"{name}ns": cpu / longest["length"] * 1e9, f"{name}mb": peak / 1e6})
    figures.record("chains", values=values)


def main():
    parser = argparse.ArgumentParser(description=__doc__, formatter_class=argparse.RawDescriptionHelpFormatter)
    parser.add_argument("--calls", type=int, default=1_000_000)
    parser.add_argument("--runs", type=int, default=5)
    parser.add_argument("--storm-runs", type=int, default=21)
    parser.add_argument("--program", default=PROGRAM)
    parser.add_argument("--peer", default=PEER)
    parser.add_argument("--json")
    parser.add_argument("--figures", action="store_true")
    words = parser.parse_args()
    become_parent_of_orphans()
    programs = {"program": [words.program, "call-costs"], "peer": [words.peer]}
    with tempfile.TemporaryDirectory() as folder:
        counter = os.path.join(folder, "count_memory.so")
        compiler = os.environ.get("CC") or shutil.which("cc") or "gcc"
        source = os.path.join(HERE, "count_memory.c")
        subprocess.run([compiler, "-O1", "-shared", "-fPIC", "-o", counter, source], check=True)
        loops = [
            loop_row(programs, counter, kind, shape, words.calls, words.runs)
            for shape in SHAPES for kind in ("core", "registry")
        ]
    print_loops(loops)
    storms = [storm_row(programs, workers, words.storm_runs) for workers in WORKERS]
    print_storms(storms)
    chains = [chain_row(programs, length, words.runs) for length in CHAINS]
    print_chains(chains)
    if words.json:
        with open(words.json, "w", encoding="utf-8") as file:
            json.dump({"loops": loops, "storms": storms, "chains": chains}, file, indent=1)
    if words.figures:
        record(loops, chains)


if __name__ == "__main__":
    main()
