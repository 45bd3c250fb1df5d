#!/usr/bin/env python3
"""Runs all that `./check` is: `rt ci`, `rt lib` of the static libraries, and the parts that the table parts.txt lists.

usage: parts.py [--quick|--anew|CRATE..]
`rt ci` has the crates to itself. Beside it run the parts that need nothing, one after the other, and `rt lib`, in a
copy of the sources in kozhumir/libraries of the user's cache, and then the parts on the libraries. Those on the
programs that `rt ci` leaves in crates/NAME/out/ run after it, side by side, and the libraries are copied there. A part
whose program or library wasn't made failed; one whose tool isn't on the PATH isn't run, and says so. With --quick
nothing is proved, and the parts for which that is enough run side by side; with --anew neither `rt ci` nor the copy
takes a proof of an earlier run; crates that are named are checked and tested, in this order, and nothing else is.
RT_JOBS, which says how many crates `rt` proves at once, is set where it isn't. The last line is the parts' sums.
"""
import os
import re
import resource
import shlex
import shutil
import sys
import tempfile
import time
from collections import namedtuple
from concurrent.futures import ThreadPoolExecutor
from pathlib import Path

TOP = Path(__file__).resolve().parent.parent
sys.path.insert(0, str(TOP / "tools"))
from running import Command, clock, end_all, exit_at_signals, lay_copy, of_this_clone, processors  # noqa: E402

COPY = of_this_clone("libraries")
COUNTS = re.compile(r"(\d+) passed, (\d+) failed\b")
AS_ONE = "sh -c '{} && echo 1 passed, 0 failed || echo 0 passed, 1 failed'"
JOBS = processors(4 << 30)  # (how many crates are proved at once)
# How many bytes of disk were measured: in the clone (the program's crates alone), in the copy, and where parts build.
TOOK = {TOP: 7300 << 20, COPY: 4000 << 20, Path(tempfile.gettempdir()): 500 << 20}
Part = namedtuple("Part", "when name needs command folder", defaults=[""])  # (a row of the table)
# A part that ended: what it said, what it counted, and its seconds on the clock and of processors.
Ended = namedtuple("Ended", "name lines passed failed seconds cpu", defaults=[0, 0])


def table():
    rows = re.sub(r"\n +", " ", TOP.joinpath("tests/parts.txt").read_text(encoding="utf-8")).splitlines()
    return [Part(*(word.strip() for word in row.split("|"))) for row in rows if row and row[0] != "#"]


GATE = Part("whole", "the gate", "", "rt ci")
# (some makes of rt take an earlier run's proofs, and know a word that keeps them from it)
ANEW = GATE._replace(command="sh -c 'rt ci $(rt help 2>&1 | grep -q -e --anew && echo --anew)'")
LIBRARIES = {it: Part("whole", f"the static library {it}", "", AS_ONE.format("rt lib"), f"{COPY}/crates/{it}")
             for it in ("span_ffi", "span_store_ffi")}
PARTS = [it for it in table() if it.when != "quick"]
QUICK = [it for it in table() if it.when != "whole"]
# What parts need of crates.
BUILT = {it: TOP / f"crates/{it}/out/{it}" for it in ("tracerun", "refused_memory", "call_loops", "span_benchmark")}
BUILT.update({it: COPY / f"crates/{it}/out/lib{it}.a" for it in LIBRARIES})


def counted(lines, status):
    """What the last line that counts says. No such line, or a wrong status with no failure, is one failure."""
    found = [it for it in map(COUNTS.match, lines) if it]
    passed, failed = map(int, found[-1].groups()) if found else (0, 0)
    return passed, failed or int(status != 0 or not found)


class Runs:
    """Runs parts over what is made in this run, until it is over."""

    def __init__(self, room):
        self.files = {"gate": Path(room) / "gate", **BUILT}
        self.places = dict(self.files, room=room, cc=os.environ.get("CC", "cc"), library=BUILT["span_ffi"].parent)
        self.made, self.is_over = set(), False

    def why_not(self, part):
        """Why a part can't run, and how many failures that is."""
        for need in part.needs.format(**self.places).split():
            if need in self.files and not (need in self.made and self.files[need].exists()):
                return f"FAILED: it was not run, as {need} was not made\n", 1
            if need not in self.files and not shutil.which(need):
                return f"not run: {need} is not on the PATH\n", 0
        return ("it was broken off\n", 1) if self.is_over else ("", 0)

    def run(self, part, shows=False):
        """Runs a part, if it can, and shows its lines as they come."""
        said, failed = self.why_not(part)
        if shows:
            print(f"== {part.name}\n{said}", end="", flush=True)
        if said:
            return Ended(part.name, [said], 0, failed)
        run = Command(lambda line: shows and print(line, end="", flush=True))
        run.begin(shlex.split(part.command.format(**self.places)), TOP / part.folder)
        run.thread.join()
        return Ended(part.name, run.lines, *counted(run.lines, run.status), run.seconds, run.cpu)

    def make(self, library):
        begun, ended = time.time(), self.run(LIBRARIES[library])
        self.has_made([library] if not ended.failed else [], begun)
        return ended

    def has_made(self, names, begun):
        """Gives what was made the time when that began: it is of the sources as they were then (./tracerun looks)."""
        self.made.update(names)
        for path in (BUILT[name] for name in names if name in BUILT and BUILT[name].exists()):
            os.utime(path, (begun, begun))


def shown(ended):
    print(f"== {ended.name}\n{''.join(ended.lines)}", end="", flush=True)
    return ended


def tell_lack():
    """Tells of a disk that has less room than a run from nothing takes there at least, if one has."""
    for place in TOOK:
        took = sum(of_it for other, of_it in TOOK.items() if os.stat(other).st_dev == os.stat(place).st_dev)
        if (free := shutil.disk_usage(place).free) < took:
            return print(f"check: {place} has {free >> 20} MiB left, and a run from nothing takes {took >> 20} or "
                         "more: make room, or name folders of other disks by TMPDIR and XDG_CACHE_HOME", flush=True)


def all_parts(runs, is_anew):
    """Runs each part, and gives it when it has ended and been shown."""
    os.environ.setdefault("RT_JOBS", str(JOBS))
    if is_anew:
        shutil.rmtree(COPY, ignore_errors=True)
    lay_copy([it.name for it in TOP.glob("crates/*")], COPY)
    tell_lack()
    *others, last = PARTS
    on_libraries = [it for it in others if LIBRARIES.keys() & {*it.needs.split()}]
    on_programs = [it for it in others if it.needs and it not in on_libraries]
    # (each lane runs what is mapped in it one after the other)
    alone, library_lane, lanes = ThreadPoolExecutor(1), ThreadPoolExecutor(1), ThreadPoolExecutor(JOBS)
    alone_ended = alone.map(runs.run, [it for it in others if not it.needs])
    libraries = library_lane.map(runs.make, LIBRARIES), library_lane.map(runs.run, on_libraries)
    begun = time.time()
    gate = runs.run(ANEW if is_anew else GATE, shows=True)
    yield gate
    yield from map(shown, alone_ended)
    said = "".join(gate.lines)
    runs.files["gate"].write_text(said, encoding="utf-8")
    runs.has_made({"gate", *re.findall(r"^rt: (\w+) (?:proved$|is kept:)", said, re.M)} - {*LIBRARIES}, begun)
    for lane in (lanes.map(runs.run, on_programs), *libraries):
        yield from map(shown, lane)
    # (the libraries go to where they are looked for, as old as their sources)
    for name in runs.made & {*LIBRARIES}:
        os.makedirs(f"{TOP}/crates/{name}/out", exist_ok=True)
        shutil.copy2(BUILT[name], f"{TOP}/crates/{name}/out")
    yield runs.run(last, shows=True)


def crates_alone(runs, crates):
    """The check and the tests of these crates."""
    for crate in (it for it in crates if not (TOP / "crates" / it).is_dir()):
        print(f"check: there is no crate {crate}", file=sys.stderr)
        sys.exit(2)
    for crate in crates:
        yield runs.run(Part("", crate, "", AS_ONE.format("rt check && rt test"), f"crates/{crate}"), shows=True)


def those_of(words, runs):
    """Runs the parts that these words want."""
    if words == ["--quick"]:
        return map(shown, ThreadPoolExecutor(len(QUICK)).map(runs.run, QUICK))
    return all_parts(runs, bool(words)) if words in ([], ["--anew"]) else crates_alone(runs, words)


def main():
    sys.stdout.reconfigure(encoding="utf-8", errors="replace")
    exit_at_signals()
    start = time.monotonic()
    with tempfile.TemporaryDirectory(prefix="check-") as room:
        runs = Runs(room)
        try:
            ended = list(those_of(sys.argv[1:], runs))
        finally:
            runs.is_over = True
            end_all()
    for it in ended:
        print(f"{it.name}: {it.passed} passed, {it.failed} failed, {clock(it.seconds)}, {clock(it.cpu)} of processors")
    cpu = clock(sum(resource.getrusage(resource.RUSAGE_CHILDREN)[:2]))  # (the program's own seconds, and the system's)
    print(f"in all {clock(time.monotonic() - start)}, and {cpu} of the {len(os.sched_getaffinity(0))} processors")
    if sys.argv[1:] == ["--quick"]:
        print("nothing was proved, and nothing ran that needs the proved library or program: ./check does all")
    passed, failed = sum(it.passed for it in ended), sum(it.failed for it in ended)
    print(f"{passed} passed, {failed} failed")
    return 1 if failed else 0


if __name__ == "__main__":
    sys.exit(main())
