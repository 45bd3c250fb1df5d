"""Runs the real tracing-subscriber over the proved store, its own tests and ours, beside the original; and the package
rust/tracing over the proved registry. The last line is 'N passed, M failed'.

tracing-subscriber is laid over by rust/tracing-subscriber/lay, with the library of `rt lib` in crates/span_store_ffi,
which is made first where it isn't there or a source is newer, or with that of --library. Then
- the crate's own tests run, over the original and over the copy, and each file of them has to pass as many tests there.
  The original's numbers are those of this run. What tests need of tracing_mock, which isn't published, is in
  tests/tracing/mock;
- the programs of tests/tracing/programs run over both. Texts have to be the same, and answers differ where
  tests/tracing/differing.txt says so, and in no other place; what has to hold holds over the copy; and where the
  original is known to fail it is run, too, so that what docs/FROM_TRACING.md says of it is seen;
- some of these run under valgrind.
Over the library of crates/span_ffi, where that is built, the tests of rust/tracing run: of ProvedRegistry (the part
outside), and of ProvedSubscriber with its example (the part under), these under valgrind too.

With --figures what pages say of a run in which all passed goes to bench/figures (tests/figures.py): how many of the
crate's own tests pass, how many spans stress made, and how many of them stayed open over the original.

What a part has built goes as soon as nothing needs it, and it has no debug information: the disk may be small.

Without cargo and patch, or without Debian's packages of the crates' sources, nothing is run, and that is said.
"""

import argparse
import os
import re
import shutil
import subprocess
import sys
import tempfile
import time
from pathlib import Path

import figures
from tracing_yard import OURS, REGISTRY, VALGRIND, Count, Yard, missing, run

TOP = Path(__file__).resolve().parent.parent
PARTS = TOP / "tests/tracing"
CRATE = TOP / "crates/span_store_ffi"
# What has to end well over the copy: the program, its words, and how many seconds it may take.
SOUND = [
    ("chain", ["1000000"], 120),
    ("threads", ["4500"], 120),
    ("ids", ["1500000", "4"], 300),
    ("last", [], 60),
    ("holds", [], 60),
    ("others", [], 60),
    ("refused", [], 120),
    ("futures", [], 120),
    ("limits", ["registries", "8191"], 120),
    ("memory", [], 120),
]
# Those over a copy whose other limits are small: what is changed there, and how much then fits.
SMALL = [
    ("src/registry/sharded/spans.rs", r"\[1 << 16, 1 << 20, 1 << 20, 1 << 20\]", "[64, 128, 128, 128]"),
    ("src/registry/sharded/spans.rs", r"(GREATEST_COUNT: u32 =) u32::MAX", r"\1 7200"),
    ("src/registry/sharded/spans.rs", r"(LAST_GENERATION: u32 =) [^;]+", r"\1 3"),
]
SMALL_LIMITS = [("spans", 16 * (64 + 3 * 128)), ("handles", 7200), ("ever", 4 * 16 * (64 + 3 * 128))]
# What the example of a leak lists.
LEAK = [
    "GET /users (INFO leak, src/bin/leak.rs:19): handles 0, children 1",
    "  query (INFO leak, src/bin/leak.rs:10): handles 1, children 0",
]
# Where the original is known to fail, and what is seen then.
UNSOUND = [
    ("chain", ["100000"], 120, r"overflowed its stack"),
    ("threads", ["4500"], 120, r"4096 of 4500 threads made a span"),
    ("ids", ["200000", "1"], 120, r"[1-9]\d* of them again"),
    ("last", [], 60, r"thread local panicked on drop"),
    ("holds", [], 60, r"tried to drop a ref to Id\(\d+\), but no such span exists"),
    ("others", [], 60, r"wrong: no two spans have one id"),
    ("refused", [], 60, r"memory allocation of \d+ bytes failed"),
    ("memory", [], 120, r"memory allocation of \d+ bytes failed"),
    ("stress", ["5", "1"], 120, r"[1-9]\d* left open"),
]
# How many programs at random are compared.
PROGRAMS = 6000
# What a program ends with where the machine lacks what it needs.
LACKING = 77
# What runs under valgrind, and whether that also looks for memory that is lost.
CHECKED = [
    ("behaviour", [], False),
    ("leaks", [], False),
    ("holds", [], True),
    ("last", [], True),
    ("stress", ["0", "5", "3", "400"], True),
]
LOST = ["--leak-check=full", "--show-leak-kinds=definite", "--errors-for-leak-kinds=definite"]
# The tests of ProvedSubscriber, and what its example lists.
UNDER = ["against", "calls", "threads", "futures", "endings"]
UNDER_LEAK = r"lost: nothing\nopen:\nGET__users \(\d+\) name=GET /users number=7, examples/leak.rs:\d+: 1 handle\n$"
# The parts, by the library that they need. (Stress is one of the programs, and runs alone where it is asked for.)
PARTS_OF_STORE = ["programs", "example", "suites"]
PARTS_OF_REGISTRY = ["outside", "under"]


def current_library():
    """The library that `rt lib` makes, made again where a source of the repository is newer; none where that fails."""
    library = CRATE / "out/libspan_store_ffi.a"
    sources = [file for end in ("src/**/*.rt", "specs/**/*.antt") for file in TOP.glob(f"crates/*/{end}")]
    newest = max(file.stat().st_mtime for file in sources)
    if library.exists() and library.stat().st_mtime >= newest:
        return library
    done = subprocess.run(["rt", "lib"], cwd=CRATE, capture_output=True, text=True)
    if done.returncode != 0:
        sys.stdout.write(done.stdout + done.stderr)
    return library if done.returncode == 0 else None


def copy_crate(yard, name, folder):
    """A copy of the crate as it is, or laid over the store."""
    if name == "copy":
        yard.lay(folder)
    else:
        shutil.rmtree(folder, ignore_errors=True)
        shutil.copytree(REGISTRY / "tracing-subscriber-0.3.16", folder,
                        ignore=shutil.ignore_patterns(".cargo-checksum.json"))


def make_suite(yard, name):
    """A copy of the crate with its tests as they were before Debian left out those that need tracing_mock."""
    folder = yard.folder / name / "tracing-subscriber"
    copy_crate(yard, name, folder)
    left_out = folder / "debian/patches/remove-tracing-mock.diff"
    if left_out.is_file():
        subprocess.run(["patch", "-R", "-s", "-p1", "-i", left_out], cwd=folder, check=True)
    manifest = folder / "Cargo.toml"
    text = manifest.read_text()
    for section in (r"\[\[bench\]\]", r"\[dev-dependencies\.criterion\]"):
        text = re.sub(rf"\n{section}\n(?:[^\[\n][^\n]*\n)*", "\n", text)
    text = text.replace("\n[package]\n", "\n[package]\nautobenches = false\n")
    text += f'\n[dev-dependencies.tracing-mock]\npath = "{PARTS / "mock"}"\n\n[workspace]\n'
    manifest.write_text(text)
    return folder


def suite_counts(yard, name):
    """For each file of the crate's own tests, how many passed and failed; and what cargo said."""
    folder = make_suite(yard, name)
    done = yard.cargo("test", folder, "--no-fail-fast", "--features", "env-filter,json")
    counts, file = {}, None
    for line in done.stdout.splitlines():
        if found := re.match(r"\s+Running (?:unittests )?(\S+) ", line):
            file = found[1]
        elif re.match(r"\s+Doc-tests ", line):
            file = "doc tests"
        elif found := re.match(r"test result: \w+\. (\d+) passed; (\d+) failed", line):
            counts[file] = (int(found[1]), int(found[2]))
    return counts, done.stdout


def run_suites(yard, count):
    """Runs the crate's own tests over both, and answers how many there are, as a figure: the copy has some of ours too."""
    original, said = suite_counts(yard, "original")
    if sum(passed for passed, _ in original.values()) == 0:
        print(said)
    ours, said = suite_counts(yard, "copy")
    for file in sorted(original):
        passed, failed = ours.get(file, (0, 0))
        if failed or passed < original[file][0]:
            count.failed += max(failed, original[file][0] - passed)
            print(f"failed: {file}: {passed} passed, {failed} failed; the original: {original[file][0]} passed")
        count.passed += passed
    if count.failed:
        print(said[-20000:])
    count.check(bool(original) and sum(passed for passed, _ in original.values()) > 0, "the original's own tests run")
    for name, counts in (("the copy", ours), ("the original", original)):
        units = sum(passed for file, (passed, _) in counts.items() if file != "doc tests")
        documented = counts.get("doc tests", (0, 0))[0]
        print(f"tracing-subscriber's own tests over {name}: {units} passed, and {documented} doc tests")
    return {"tests-of-the-original": {"tests": units, "doc_tests": documented}}


def make_small(laid):
    """Gives a copy small limits."""
    for name, pattern, new in SMALL:
        text, times = re.subn(pattern, new, (laid / name).read_text())
        assert times == 1, f"{name} has {times} places like {pattern}"
        (laid / name).write_text(text)


def build_programs(yard, name, *words):
    """The folder of the built programs, those that the words say; none where that fails."""
    folder = yard.folder / name / "programs"
    left_out = shutil.ignore_patterns("target", "Cargo.lock")
    shutil.copytree(PARTS / "programs", folder, dirs_exist_ok=True, ignore=left_out)
    words = ["--release", *words]
    if name != "original":
        laid = yard.folder / name / "laid"
        yard.lay(laid)
        if name == "small":
            make_small(laid)
        words += ["--config", f'patch.crates-io.tracing-subscriber.path="{laid}"']
    done = yard.cargo("build", folder, *words)
    if done.returncode != 0:
        print(done.stdout)
        return None
    bins = yard.folder / name / "bin"
    bins.mkdir(exist_ok=True)
    for source in (folder / "src/bin").glob("*.rs"):
        if "--bin" not in words or source.stem in words:
            # (cargo has it by another name, too)
            (yard.folder / "target/release" / source.stem).replace(bins / source.stem)
    return bins


def differing():
    """The answers that differ, by program and question: the original's and ours."""
    text = (PARTS / "differing.txt").read_text()
    found = re.findall(r"^\? (\w+), (.*)\n- (.*)\n\+ (.*)$", text, re.MULTILINE)
    return {(program, question): (theirs, ours) for program, question, theirs, ours in found}


def compare_answers(original, ours, count):
    known = differing()
    for program in ("behaviour", "leaks"):
        said = [run(side / program)[0].splitlines() for side in (original, ours)]
        sides = [dict(line.split(" => ", 1) for line in lines) for lines in said]
        count.check(sides[0].keys() == sides[1].keys() and len(sides[0]) > 10, f"{program} asks the same of both")
        for question, theirs in sides[0].items():
            wanted = known.pop((program, question), (theirs, theirs))
            answers = (theirs, sides[1].get(question))
            count.check(answers == wanted, f"{program}, {question}: {answers[0]!r}, and ours {answers[1]!r}")
    count.check(not known, f"each question of differing.txt was asked: {list(known)}")


def compare_random(original, ours, seed, count):
    """Programs at random: the same ones each time, but for those that ask for others."""
    words = [str(seed), str(PROGRAMS)]
    theirs, said = (run(side / "random", words, 300)[0].splitlines() for side in (original, ours))
    other = [pair for pair in zip(theirs, said) if pair[0] != pair[1]]
    is_whole = len(theirs) == len(said) == PROGRAMS
    count.check(is_whole and not other, f"random {' '.join(words)}: {len(said)} of {len(theirs)}, {other[:3]}")


def compare_texts(original, ours, count):
    theirs, status = run(original / "texts")
    text, our_status = run(ours / "texts")
    count.check(status == 0 and our_status == 0 and len(theirs.splitlines()) > 300, "texts runs over both")
    count.check(theirs == text, "fmt, EnvFilter, JSON, reload and tracing-log write the same text over both")
    theirs, text = (run(side / "readme")[0] for side in (original, ours))
    count.check(theirs == text and len(text.splitlines()) == 1, f"README's program over both: {theirs!r}, {text!r}")


def check_run(count, whose, program, words, seconds, fault=None):
    """A program ends well, or with a fault that is known; answers what it said."""
    said, status = run(program, words, seconds)
    what = f"{whose}{program.name} {' '.join(words)}"
    print(f"{what}: {(said.splitlines() or [''])[-1]}")
    if status == LACKING:
        print(f"not run: {what}")
    elif fault is None:
        count.check(status == 0, f"{what}: status {status}\n{said[-3000:]}")
    else:
        is_seen = status not in (0, None) and re.search(fault, said) is not None
        count.check(is_seen, f"{what} fails as docs/FROM_TRACING.md says: status {status}\n{said[-3000:]}")
    return said


def run_parking_lot(yard, ours, count):
    """The crate's feature parking_lot, by which it has other locks."""
    bins = build_programs(yard, "parking_lot", "--features", "parking_lot", "--bin", "behaviour", "--bin", "holds")
    count.check(bins is not None, "the programs are built with the feature parking_lot")
    if bins:
        answers = [run(side / "behaviour")[0].splitlines() for side in (ours, bins)]
        # These locks know no poison.
        other = [pair for pair in zip(*answers) if pair[0] != pair[1] and "Mutex poisoned" not in pair[0]]
        is_whole = len(answers[0]) == len(answers[1]) > 10
        count.check(is_whole and not other, f"behaviour answers the same over parking_lot: {other[:3]}")
        check_run(count, "parking_lot, ", bins / "holds", [], 60)
    yard.clear("parking_lot")


def run_lay(yard, count):
    """Where lay can't go on it says why, and leaves nothing."""
    folder = yard.folder / "lay"
    shutil.rmtree(folder, ignore_errors=True)
    copy_crate(yard, "original", folder / "other")
    (folder / "other/src/layer/layered.rs").write_text("")
    line = [sys.executable, OURS / "lay", folder / "laid", "--library", yard.library, "--from"]
    asked = [
        ("rt says no page", [REGISTRY / "tracing-subscriber-0.3.16"]),
        ("has 0 places", [folder / "other", "--shim", yard.library]),
    ]
    for why, words in asked:
        done = subprocess.run([*line, *words], env={"PATH": str(folder)}, stderr=subprocess.PIPE, text=True)
        is_said = done.returncode == 1 and done.stderr.startswith("lay: ") and why in done.stderr
        count.check(is_said and not (folder / "laid").exists(), f"lay says that {why}: {done.stderr}")


def run_limits(yard, count):
    """What the registry does at limits that a test can reach."""
    bins = build_programs(yard, "small", "--bin", "limits")
    count.check(bins is not None, "a copy with small limits is built")
    for limit, most in SMALL_LIMITS if bins else []:
        said, status = run(bins / "limits", [limit, str(most)], 120)
        count.check(status == 0, f"limits {limit} {most}: status {status}\n{said[-3000:]}")
    yard.clear("small")


def stressed(said):
    """How many spans stress made, and how many of them it left open."""
    found = re.findall(r"turns, (\d+) spans, (\d+) left open", said)
    return {"spans": int(found[-1][0]), "open": int(found[-1][1])} if found else {}


def run_stress(yard, count, seconds):
    """Runs stress alone, over both; answers what it made of spans, as figures."""
    original, ours = (build_programs(yard, name, "--bin", "stress") for name in ("original", "copy"))
    if original is None or ours is None:
        count.check(False, "stress is built")
        return {}
    said = check_run(count, "", ours / "stress", *stress_words(seconds))
    (there,) = [it for it in UNSOUND if it[0] == "stress"]
    return stress_figures(said, check_run(count, "the original, ", original / "stress", *there[1:]), seconds)


def stress_words(seconds):
    """The words of stress for so many seconds, with another seed each time, and how many seconds it may take."""
    return [str(seconds), str(int(time.time()) % 100_000)], seconds + 300


def stress_figures(said, said_there, seconds):
    return {"stress": {**stressed(said), "minutes": seconds / 60}, "stress-original": stressed(said_there)}


def run_under_valgrind(ours, count):
    if shutil.which("valgrind") is None:
        print("not run under valgrind: it isn't there")
        return
    for program, words, looks_for_lost in CHECKED:
        before = VALGRIND + (LOST if looks_for_lost else [])
        said, status = run(ours / program, words, 600, before)
        count.check(status == 0, f"valgrind, {program}: status {status}\n{said[-3000:]}")


def run_programs(yard, count, seconds, seed):
    """Runs the programs over both, and answers what stress made of spans, as figures."""
    original, ours = (build_programs(yard, name) for name in ("original", "copy"))
    if original is None or ours is None:
        count.check(False, "the programs are built")
        return {}
    compare_answers(original, ours, count)
    compare_texts(original, ours, count)
    compare_random(original, ours, seed, count)
    stress = ("stress", *stress_words(seconds))
    said = {program: check_run(count, "", ours / program, words, limit) for program, words, limit in [*SOUND, stress]}
    run_limits(yard, count)
    run_parking_lot(yard, ours, count)
    yard.clear("target")
    said_there = {program: check_run(count, "the original, ", original / program, words, limit, fault)
                  for program, words, limit, fault in UNSOUND}
    run_under_valgrind(ours, count)
    yard.clear("original", "copy")
    return stress_figures(said["stress"], said_there["stress"], seconds)


def run_example(yard, count):
    """The program of the folder example, built as its page says."""
    folder = yard.folder / "example"
    shutil.rmtree(folder, ignore_errors=True)
    shutil.copytree(OURS / "example", folder, ignore=shutil.ignore_patterns("target", "laid", "Cargo.lock"))
    yard.lay(folder / "laid")
    done = yard.cargo("run", folder, "--quiet")
    page = (TOP / "docs/FROM_TRACING.md").read_text().split("\n## ")[1]
    sources = {"rust": folder / "src/main.rs", "toml": folder / "Cargo.toml"}
    blocks = re.findall(r"^```(rust|toml)\n(.*?)^```$", page, re.MULTILINE | re.DOTALL)
    for language, block in blocks:
        count.check(block in sources[language].read_text(), f"the page's block is the example's: {block}")
    count.check(len(blocks) == 2, "the page has two blocks of the example")
    lines = [line for line in done.stdout.splitlines() if line.startswith((" INFO", " WARN"))]
    is_right = done.returncode == 0 and len(lines) == 8 and "GET /users" in lines[0]
    count.check(is_right, f"the example: {done.stdout[-3000:]}")
    done = yard.cargo("run", folder, "--quiet", "--bin", "leak")
    listed = [line for line in done.stdout.splitlines() if "handles" in line]
    count.check(done.returncode == 0 and listed == LEAK, f"the example of a leak: {done.stdout[-3000:]}")
    words = ["cargo", "update", "--offline", "-p", "tracing-subscriber", "--precise", "0.3.16"]
    done = subprocess.run(words, cwd=folder, stdin=subprocess.DEVNULL, capture_output=True, text=True)
    count.check(done.returncode == 0, f"the version that the page asks for: {done.stderr}")


def run_tests(yard, count, folder, *words):
    """Runs tests by cargo, counts what they count, and gives what was said."""
    done = yard.cargo("test", folder, "--no-fail-fast", *words)
    found = re.findall(r"^test result: \w+\. (\d+) passed; (\d+) failed", done.stdout, re.MULTILINE)
    passed, failed = (sum(int(pair[at]) for pair in found) for at in (0, 1))
    print(f"rust/tracing, {' '.join(words)}: {passed} passed, {failed} failed")
    count.passed += passed
    count.failed += failed
    if done.returncode != 0 or passed == 0:
        count.check(False, f"the tests of rust/tracing run: {done.stdout[-5000:]}")
    return done.stdout


def run_outside(yard, folder, count):
    """The tests of ProvedRegistry, which stands beside the crate."""
    run_tests(yard, count, folder, "--test", "layers")


def run_under(yard, folder, count):
    """The tests of ProvedSubscriber and of what all of the package shares, and its example."""
    said = run_tests(yard, count, folder, "--lib", *(word for name in UNDER for word in ("--test", name)))
    run_tests(yard, count, folder, "--doc")
    done = yard.cargo("run", folder, "--quiet", "--example", "leak")
    is_listed = re.search(UNDER_LEAK, done.stdout) is not None
    count.check(done.returncode == 0 and is_listed, f"the example of rust/tracing: {done.stdout[-3000:]}")
    built = dict(re.findall(r"^ +Running tests/(\w+)\.rs \((.+)\)$", said, re.MULTILINE))
    count.check(sorted(built) == sorted(UNDER), f"each file of tests was run: {said[-3000:]}")
    if shutil.which("valgrind") is None:
        print("not run under valgrind: it isn't there")
        return
    before = ["env", "SPAN_REGISTRY_UNDER_MEMCHECK=1", *VALGRIND, "--trace-children=yes"]
    for name, program in built.items():
        said, status = run(folder / program, ["--test-threads=1"], 120, before)
        count.check(status == 0, f"valgrind, {name} of rust/tracing: status {status}\n{said[-3000:]}")


def run_over_registry(yard, library, parts, count):
    """The parts over the library of crates/span_ffi, in a copy of rust/."""
    if not library.is_file():
        print(f"not run: the tests of rust/tracing, since there is no {library}")
        return
    folder = yard.folder / "rust"
    shutil.copytree(TOP / "rust", folder, dirs_exist_ok=True, ignore=shutil.ignore_patterns("target", "Cargo.lock"))
    os.environ["SPAN_REGISTRY_LIB"] = str(library.resolve().parent)
    if "outside" in parts:
        run_outside(yard, folder / "tracing", count)
    if "under" in parts:
        run_under(yard, folder / "tracing", count)


def run_over_store(yard, parts, seconds, seed, count):
    """The parts over the store's library; answers what pages say of them, by the names of files in bench/figures."""
    found = {}
    if "programs" in parts:
        found.update(run_programs(yard, count, seconds, seed))
    elif "stress" in parts:
        found.update(run_stress(yard, count, seconds))
    if "example" in parts:
        run_lay(yard, count)
        run_example(yard, count)
    if "suites" in parts:
        found.update(run_suites(yard, count))
    yard.clear("example", "lay", "original", "copy", "target")
    return found


def asked_for():
    parser = argparse.ArgumentParser(description=__doc__, formatter_class=argparse.RawDescriptionHelpFormatter)
    parser.add_argument("--library", type=Path, help="the static library libspan_store_ffi.a to test")
    parser.add_argument("--seconds", type=int, default=60, help="how long stress runs (60)")
    parser.add_argument("--seed", type=int, default=1, help="the first of the programs at random (1)")
    parser.add_argument("--jobs", type=int, default=2, help="how many processes cargo starts at a time (2)")
    parser.add_argument("--folder", type=Path, help="where to build; it is kept then")
    parser.add_argument("--registry-library", type=Path, default=TOP / "crates/span_ffi/out/libspan_ffi.a",
                        help="libspan_ffi.a, on which rust/tracing stands")
    parser.add_argument("--figures", action="store_true", help="what pages say of the run goes to bench/figures")
    parser.add_argument("--part", choices=[*PARTS_OF_STORE, "stress", *PARTS_OF_REGISTRY], help="this part alone")
    return parser.parse_args()


def main():
    asked, count = asked_for(), Count()
    sys.stdout.reconfigure(line_buffering=True)
    lack = missing()
    if lack is not None:
        print(f"not run: {lack}\n0 passed, 0 failed")
        return 0
    parts, library = [asked.part] if asked.part else [*PARTS_OF_STORE, *PARTS_OF_REGISTRY], None
    if not set(parts) <= set(PARTS_OF_REGISTRY):
        library = asked.library.resolve() if asked.library else current_library()
        if library is None or not library.is_file():
            print("there is no library\n0 passed, 1 failed")
            return 1
    with tempfile.TemporaryDirectory() as made:
        yard = Yard((asked.folder or Path(made)).resolve(), library, asked.jobs, is_kept=asked.folder is not None)
        found = run_over_store(yard, parts, asked.seconds, asked.seed, count)
        if set(parts) & set(PARTS_OF_REGISTRY):
            run_over_registry(yard, asked.registry_library, parts, count)
    if asked.figures and count.failed == 0:
        for name, values in found.items():
            figures.record(name, values=values)
    print(f"{count.passed} passed, {count.failed} failed")
    return int(count.failed > 0)


if __name__ == "__main__":
    sys.exit(main())
