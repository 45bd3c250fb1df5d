"""Measures tracing-subscriber over the proved store beside the original: bench/tracing, built with each.

    bench/tracing.py instructions   of a round, by callgrind: the difference of two runs, which no load changes
    bench/tracing.py proved         instructions of a span on the proved registry of rust/tracing, by callgrind
    bench/tracing.py allocations    of a round
    bench/tracing.py clock          nanoseconds of a round by 1, 2, 4 and 8 threads at once, of the clock from the first
                                    thread's start to the last one's end, and of the processor, the two by turns, the
                                    least of so many turns each; on a quiet machine
    bench/tracing.py benches        the crate's own four benches, with a stand-in for criterion: nanoseconds of the
                                    clock, as above

Each line ends in ours over the original's; of the clock it has the calls a second of all threads, too. With --figures
the clock is looked at for what pages tell alone, and the first two and the clock go to bench/figures (tracing.json,
tracing-registry.json, tracing-clock.json), from where tests/figures.py takes them to the pages. What is needed is what
tests/tracing.py needs.
"""

import argparse
import json
import os
import re
import shutil
import subprocess
import sys
import tempfile
from pathlib import Path

TOP = Path(__file__).resolve().parent.parent
sys.path.insert(0, str(TOP / "tests"))

import figures  # noqa: E402
import tracing  # noqa: E402

# Calls, work, layer and depth of each round.
ROUNDS = [
    *(("raw", work, layer, depth) for layer in ("none", "look", "line", "fmt") for work in ("span", "event", "all")
      for depth in (0, 1, 8, 100)),
    ("raw", "clone", "none", 1),
    ("macros", "span", "none", 1),
    ("macros", "clone", "none", 1),
    ("macros", "event", "none", 1),
    ("macros", "all", "none", 1),
]
TIMED = [
    ("raw", "span", "none", 0),
    ("raw", "span", "none", 1),
    ("raw", "span", "none", 100),
    ("raw", "shared", "none", 0),
    ("raw", "shared", "line", 0),
    ("raw", "clone", "none", 1),
    ("raw", "event", "none", 1),
    ("macros", "span", "none", 1),
    ("raw", "span", "look", 1),
    ("raw", "all", "look", 8),
    ("raw", "all", "line", 1),
    ("raw", "all", "line", 8),
    ("raw", "all", "fmt", 1),
]
# What pages tell: of a table's rows the names in the file; and a tree that all threads share, behind one lock.
TOLD = {
    "a root": ("raw", "span", "none", 0),
    "a span, 1 below": ("raw", "span", "none", 1),
    "a span, 100 below": ("raw", "span", "none", 100),
    "an event": ("raw", "event", "none", 1),
    "all with `fmt`, 1 below": ("raw", "all", "fmt", 1),
}
SPAN = TOLD["a span, 1 below"]
SHARED = ("raw", "shared", "line", 0)
SAME = 1.005  # what is less differs from run to run
BENCHES = ["enter", "filter", "filter_log", "fmt"]
SIDES = ("original", "copy")


def built(yard, name):
    """The program of rounds over the original, over the copy, or over the proved registry of rust/tracing."""
    folder = yard.folder / name / "rounds"
    left_out = shutil.ignore_patterns("target", "Cargo.lock")
    for source, to in (("bench/tracing", folder), ("rust", folder.parent.parent / "rust")):
        shutil.copytree(TOP / source, to, dirs_exist_ok=True, ignore=left_out)
    words = ["--release"]
    if name == "copy":
        laid = yard.folder / name / "laid"
        yard.lay(laid)
        words += ["--config", f'patch.crates-io.tracing-subscriber.path="{laid}"']
    if name == "proved":
        words += ["--features", "proved"]
    done = yard.cargo("build", folder, *words)
    if done.returncode != 0:
        sys.exit(done.stdout)
    program = yard.folder / name / "rounds-program"
    shutil.copyfile(yard.folder / "target/release/rounds", program)
    program.chmod(0o755)
    return program


def line(words, original, ours, unit):
    """A line of a table: what was done, both figures, and their quotient."""
    text = " ".join(str(word) for word in words)
    print(f"{text:44} {original:12.1f} {ours:12.1f} {unit:15} {ours / original if original else 1:5.2f}", flush=True)


def instructions_of(program, words, rounds):
    command = ["valgrind", "--tool=callgrind", "--callgrind-out-file=/dev/null", program, *words, "1", str(rounds), "1"]
    done = subprocess.run([str(word) for word in command], capture_output=True, text=True, check=True)
    return int(re.search(r"Collected : (\d+)", done.stderr)[1])


def instructions_of_round(program, words):
    # What differs from run to run, as by the seeds of maps, is some thousands of instructions in all.
    few = 5000 if words[2] == "none" else 500 if words[3] < 100 else 100
    return (instructions_of(program, words, 3 * few) - instructions_of(program, words, few)) / (2 * few)


def instructions(programs, rounds):
    """Of each round those of the original and ours."""
    found = {}
    for words in rounds:
        found[words] = [instructions_of_round(program, words) for program in programs]
        line(words, *found[words], "instructions")
    return found


def figures_of(program, words, threads, rounds, turns):
    """The nanoseconds of a round, those of its processor, and its allocations."""
    command = [program, *words, threads, rounds, turns]
    done = subprocess.run([str(word) for word in command], capture_output=True, text=True, check=True)
    return tuple(float(word) for word in re.findall(r"[\d.]+", done.stdout))


def allocations(programs, rounds):
    for words in rounds:
        line(words, *(figures_of(program, words, 1, 2000, 3)[2] for program in programs), "allocations")


def clock(programs, timed, threads, turns, rounds):
    """Of each round and number of threads the nanoseconds of the original and ours."""
    found = {}
    for words in timed:
        for count in threads:
            least = [[float("inf")] * 3 for _ in programs]
            for _ in range(turns):
                for at, program in enumerate(programs):
                    again = figures_of(program, words, count, rounds, 3)
                    least[at] = [min(pair) for pair in zip(least[at], again)]
            line((*words, f"{count} threads"), *(it[0] for it in least), "ns")
            line((*words, f"{count} threads"), *(it[1] for it in least), "ns of processor")
            line((*words, f"{count} threads"), *(1e3 * count / it[0] for it in least), "million/s")
            found[words, count] = [it[0] for it in least]
    return found


def record_instructions(found):
    """What pages tell of all rounds."""
    rows = [{"name": name, "there": found[words][0], "ours": found[words][1]} for name, words in TOLD.items()]
    more = sum(original * SAME < ours for original, ours in found.values())
    values = {"span_there": found[SPAN][0], "span": found[SPAN][1], "rounds": len(found), "more": str(more or "none")}
    figures.record("tracing", rows, values)


def record_clock(found, threads):
    """What pages tell of the clock."""
    def of(words, name):
        pairs = {count: found[words, count] for count in threads}
        return {f"{name}_{count}{side}": nanoseconds for count, pair in pairs.items()
                for side, nanoseconds in zip(("_there", ""), pair)}

    rows = [{"name": name, **of(words, "ns")} for name, words in TOLD.items()]
    figures.record("tracing-clock", rows, of(SHARED, "shared"))


def benches_of(yard, name):
    """The programs of the crate's own benches over one of the two."""
    folder = yard.folder / name / "benches"
    tracing.copy_crate(yard, name, folder)
    manifest = folder / "Cargo.toml"
    text, times = re.subn(r"(\[dev-dependencies\.criterion\]\n)(?:[^\[\n][^\n]*\n)*",
                          rf'\1path = "{TOP / "bench/tracing/criterion"}"\n', manifest.read_text())
    assert times == 1, f"{manifest} names criterion once"
    manifest.write_text(text + "\n[workspace]\n")
    chosen = [word for bench in BENCHES for word in ("--bench", bench)]
    done = yard.cargo("bench", folder, "--no-run", "--features", "env-filter", "--message-format", "json", *chosen)
    made = [json.loads(said) for said in done.stdout.splitlines() if said.startswith("{")]
    programs = {it["target"]["name"]: it["executable"] for it in made if it.get("executable")}
    if sorted(programs) != BENCHES:
        sys.exit(done.stdout)
    return [Path(shutil.copy(programs[bench], yard.folder / name / f"bench-{bench}")) for bench in BENCHES]


def benches(sides, turns):
    os.environ["SAMPLES"] = "10"
    for programs in zip(*sides):
        least = [{}, {}]
        for _ in range(turns):
            for of_side, program in zip(least, programs):
                done = subprocess.run([program, "--bench"], capture_output=True, text=True, check=True)
                for bench, figure in re.findall(r"^(\S+) ([\d.]+) ns$", done.stdout, re.MULTILINE):
                    of_side[bench] = min(float(figure), of_side.get(bench, float("inf")))
        for bench, figure in least[0].items():
            line((bench,), figure, least[1][bench], "ns")


def on_proved(yard, keeps):
    """A span on the proved registry."""
    count = instructions_of_round(built(yard, "proved"), SPAN)
    print(f"{' '.join(map(str, SPAN)):44} {count:12.1f} instructions")
    if keeps:
        figures.record("tracing-registry", values={"registry": count})


def measured(asked, yard):
    """Does what is asked for, and keeps what pages tell of it."""
    if asked.what == "proved":
        on_proved(yard, asked.figures)
        return
    build = benches_of if asked.what == "benches" else built
    programs = [build(yard, name) for name in SIDES]
    print(f"{'':44} {'original':>12} {'ours':>12}")
    if asked.what == "benches":
        benches(programs, asked.turns)
    elif asked.what == "allocations":
        allocations(programs, ROUNDS[:asked.first])
    elif asked.what == "instructions":
        found = instructions(programs, ROUNDS[:asked.first])
        if asked.figures:
            record_instructions(found)
    else:
        timed = [*TOLD.values(), SHARED] if asked.figures else TIMED[:asked.first]
        found = clock(programs, timed, asked.threads, asked.turns, asked.rounds)
        if asked.figures:
            record_clock(found, asked.threads)


def main():
    parser = argparse.ArgumentParser(description=__doc__, formatter_class=argparse.RawDescriptionHelpFormatter)
    parser.add_argument("what", choices=["instructions", "proved", "allocations", "clock", "benches"])
    parser.add_argument("--library", type=Path, help="libspan_store_ffi.a; without it, that of rt lib")
    parser.add_argument("--registry-library", type=Path, default=TOP / "crates/span_ffi/out/libspan_ffi.a",
                        help="libspan_ffi.a, on which rust/tracing stands")
    parser.add_argument("--folder", type=Path, help="where to build; it is kept then")
    parser.add_argument("--jobs", type=int, default=2)
    parser.add_argument("--threads", type=int, nargs="+", default=[1, 2, 4, 8])
    parser.add_argument("--turns", type=int, default=5)
    parser.add_argument("--rounds", type=int, default=50_000)
    parser.add_argument("--first", type=int, metavar="N", help="so many rounds alone")
    parser.add_argument("--figures", action="store_true", help="what pages tell goes to bench/figures")
    asked = parser.parse_args()
    if asked.figures and asked.first:
        parser.error("pages tell of all rounds")
    if lack := tracing.missing():
        sys.exit(f"not run: {lack}")
    library = None if asked.what == "proved" else asked.library or tracing.current_library()
    if library is None and asked.what != "proved":
        sys.exit("there is no library of the store")
    os.environ["SPAN_REGISTRY_LIB"] = str(asked.registry_library.resolve().parent)
    with tempfile.TemporaryDirectory() as made:
        measured(asked, tracing.Yard((asked.folder or Path(made)).resolve(), library and library.resolve(), asked.jobs))


if __name__ == "__main__":
    main()
