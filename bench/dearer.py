#!/usr/bin/env python3
"""Measures what takes longer than at the start in scripts of that alone: `tracerun replay` of two checkouts by turns.

usage: dearer.py OLD [--runs N] [--part PART] [--figures]

OLD is a checkout of the start in which tracerun is built, beside which this one is. Of each script the least CPU of the
runs, the greatest peak memory, and their ratios; both have to write the same bytes. Of several scripts of one name the
greatest ratio is kept, and the least; so of all STEPS. PART of a script's size is run, all of it where it isn't given.
With --figures they go to bench/figures/takes-longer.json, from where tests/figures.py takes them to the pages.
"""
import argparse
import sys
import tempfile
from pathlib import Path

from measure import become_parent_of_orphans, run_once

TOP = Path(__file__).resolve().parent.parent
sys.path.insert(0, str(TOP / "tests"))

import figures  # noqa: E402

PROGRAM = "crates/tracerun/out/tracerun"
MEGABYTE, MEBIBYTE = 1_000_000, 1 << 20


def filled(size, head, part, tail):
    """A text of at most so many bytes: the head, the part again and again with commas between, the tail."""
    times = max(1, (size - len(head) - len(tail) + 1) // (len(part) + 1))
    return head + ",".join([part] * times) + tail


def repeated_key(size):
    """A `new` of one key, again and again, which nobody reads."""
    return filled(size, '{"op":"new","name":"a",', '"":0', "}\n")


def repeated_key_unread(size):
    """The same in an object that nobody reads."""
    return filled(size, '{"op":"new","name":"a","other":{', '"":0', "}}\n")


def small_lists(length, head=""):
    """What makes lines of so many bytes, of small lists that nobody reads."""
    line = filled(length, '{"op":"event","message":"m","other":[', "[1]", "]}\n")
    return lambda size: head + line * max(1, size // length)


def repeated(line):
    """What makes scripts of one line, again and again."""
    return lambda size: line * (size // len(line))


def short_names(key):
    """What makes scripts of events without a layer, whose fields' keys are short."""
    return repeated(filled(1_000, '{"op":"event","message":"","fields":[', f'["{key}",""]', "]}\n"))


# For each name of figures the scripts, of which the one counts that takes most, and their bytes.
LAYER = '{"op":"layer"}\n'
LISTS = [small_lists(length, head) for length in (6_000, 40_000, 150_000) for head in ("", LAYER)]
SCRIPTS = {
    "key": ([repeated_key], 16 * MEGABYTE), "unread": ([repeated_key_unread], 8 * MEGABYTE),
    "lists": (LISTS, 8 * MEBIBYTE), "short": ([repeated(" " * length + "\n") for length in (1, 4, 12)], 8 * MEBIBYTE),
    "blanks": ([repeated(" " * 32 + "\n")], 8 * MEBIBYTE),
    "names": ([short_names("a"), short_names("abc")], 8 * MEBIBYTE),
    "refused": ([repeated('{"op":"new","name":"/a"}\n')], 8 * MEBIBYTE),
}
# Those where a step takes longer, and a whole script need not.
STEPS = ("short", "blanks", "names", "refused")


def by_turns(programs, script, runs):
    """The least CPU seconds and the greatest peak in MB of each program."""
    with tempfile.NamedTemporaryFile(suffix=".jsonl") as file:
        file.write(script.encode())
        file.flush()
        turns = [[run_once([program, "replay"], file.name) for program in programs] for _ in range(runs)]
    for run in (run for turn in turns for run in turn):
        if run.status != 0 or run.sum != turns[0][0].sum:
            sys.exit(f"dearer.py: status {run.status}, {run.error}; or they write different bytes")
    return [(min(run.cpu for run in of), max(run.peak for run in of) / 1e6) for of in zip(*turns)]


def main():
    parser = argparse.ArgumentParser(description=__doc__, formatter_class=argparse.RawDescriptionHelpFormatter)
    parser.add_argument("old", type=Path)
    parser.add_argument("--runs", type=int, default=5)
    parser.add_argument("--part", type=float, default=1)
    parser.add_argument("--figures", action="store_true")
    asked = parser.parse_args()
    programs = [asked.old.resolve() / PROGRAM, TOP / PROGRAM]
    for program in programs:
        if not program.is_file():
            sys.exit(f"dearer.py: {program} isn't there; build it: cd {program.parent.parent} && rt run")
    become_parent_of_orphans()
    values = {}
    print("| script | CPU s at the start | CPU s now | ratio | peak MB at the start | peak MB now |")
    print("|---|---:|---:|---:|---:|---:|")
    for name, (scripts, size) in SCRIPTS.items():
        ratios = []
        for made in scripts:
            (old_cpu, old_peak), (cpu, peak) = by_turns(programs, made(int(size * asked.part)), asked.runs)
            ratios.append(cpu / old_cpu)
            seconds = f"{old_cpu:.3f} | {cpu:.3f} | {ratios[-1]:.2f}"
            print(f"| {name} | {seconds} | {old_peak:.0f} | {peak:.0f} |", flush=True)
        values.update({name: max(ratios), f"{name}_least": min(ratios)})
        values.update({f"{name}_peak": peak, f"{name}_peak_old": old_peak})
    values.update(steps=max(values[it] for it in STEPS), steps_least=min(values[f"{it}_least"] for it in STEPS))
    if asked.figures:
        figures.record("takes-longer", values=values, beside=asked.old)


if __name__ == "__main__":
    main()
