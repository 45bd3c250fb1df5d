#!/usr/bin/env python3
"""Looks at the pages: how many words each has, that each relative link leads somewhere, that a thing is said once.

usage: pages.py [--words]

A page may have as many words as MOST says, blocks of code and measured tables (tests/figures.py) aside; one that a
script makes from what stands elsewhere (MADE) as many as come out. A link names a file of the repository, and where it
goes on with '#' a heading of it. No sentence of more than eight words stands in two pages, quoted lines aside, and none
of README.md has more than thirty. Code is not looked at.
The table of docs/LAYERS.md has each crate of crates.txt, and all on which it stands. CHANGELOG.md and the packages in
Rust have the version of the command line. With --words it prints what each page has and may have. The last line is
'N passed, M failed'.
"""
import re
import sys
from pathlib import Path

TOP = Path(__file__).resolve().parent.parent
PAGES = ("*.md", "docs/*.md", "crates/*/*.md", "rust/*.md", "rust/*/*.md", "bench/*.md", "tests/*.md", "examples/*.md")
FIGURES = re.compile(r"<!-- figures ([\w-]+) -->\n.*?<!-- end -->", flags=re.S)
WORDS_OF_A_SENTENCE = 8
WORDS_OF_A_SENTENCE_IN_README = 30
PARTS_OF_STD = {"core", "std_alloc", "std_heap"}

# The most words that all pages may have together, and that each of them may.
ALL = 23_000
MOST = {
    "README.md": 900, "CHANGELOG.md": 230, "bench/README.md": 280,
    "crates/refused_memory/README.md": 205, "crates/span_benchmark/README.md": 115,
    "crates/span_border/README.md": 70, "crates/span_core/README.md": 395, "crates/span_core_tests/README.md": 50,
    "crates/span_ffi/README.md": 190, "crates/span_forest/README.md": 155,
    "crates/span_history/README.md": 145, "crates/span_id/README.md": 115,
    "crates/span_json/README.md": 70, "crates/span_known/README.md": 80,
    "crates/span_layers/README.md": 130, "crates/span_outlet/README.md": 380,
    "crates/span_component_tests/README.md": 85, "crates/span_recent/README.md": 110,
    "crates/span_registry/CALLING.md": 500, "crates/span_registry/README.md": 335,
    "crates/span_registry_tests/README.md": 40, "crates/span_replay/README.md": 145,
    "crates/span_run/README.md": 65, "crates/tracerun_tests/README.md": 40,
    "crates/span_script/README.md": 95, "crates/span_seats/README.md": 135,
    "crates/span_slots/README.md": 85, "crates/span_stack/README.md": 85,
    "crates/span_store/README.md": 220, "crates/span_store_ffi/README.md": 120,
    "crates/span_storm/README.md": 255, "crates/span_why/README.md": 70,
    "crates/tracerun/README.md": 75,
    "crates/tracerun_command_line/README.md": 70, "crates/two_workers/README.md": 115,
    "crates/call_loops/README.md": 220, "docs/BENCHMARKS.md": 1500, "docs/CONTRIBUTING.md": 2200,
    "docs/DECISIONS.md": 2550, "docs/FORMATS.md": 2000, "docs/FROM_TRACING.md": 1300,
    "docs/LAYERS.md": 1000,
    "docs/PRIVATE_CONTRACTS.md": 415, "docs/PROMISES.md": 1025, "docs/PROOFS.md": 1950,
    "docs/THEOREM.md": 680,
    "examples/README.md": 165, "rust/README.md": 1200, "rust/tracing-subscriber/README.md": 500,
    "rust/tracing/README.md": 570, "tests/README.md": 220,
}
# Pages whose words a script takes from elsewhere. (What docs/THEOREM.md says beside quotations is written for it.)
MADE = {"docs/MODEL.md": "tests/model_page.py"}


def read_pages():
    paths = sorted({path for pattern in PAGES for path in TOP.glob(pattern)})
    return {path.relative_to(TOP).as_posix(): path.read_text(encoding="utf-8") for path in paths}


def prose(text):
    """The page without its comments, its blocks of code and its measured tables."""
    text = re.sub(r"<!--.*?-->", "", FIGURES.sub("", text), flags=re.S)
    text = re.sub(r"^```.*?^```", "", text, flags=re.S | re.M)
    return re.sub(r"^    .*$", "", text, flags=re.M)


def words_of(text):
    return len(prose(text).split())


def lengths(pages):
    """A page that isn't listed may have no word, and a listed one is there."""
    for name in sorted({*pages, *MOST} - {*MADE}):
        most, found = MOST.get(name, 0), words_of(pages.get(name, ""))
        yield 0 < found <= most, f"{name} has {found} words, and may have {most}"
    found = sum(words_of(pages.get(name, "")) for name in MOST)
    yield found <= ALL, f"the pages have {found} words together, and may have {ALL}"


def anchors(text):
    """The names by which links go to the page's headings: small letters, no points, '-' for a blank."""
    heads = re.findall(r"^#+ +(.*?) *$", prose(text), flags=re.M)
    shown = (re.sub(r"\[([^]]*)\]\([^)]*\)", r"\1", head) for head in heads)
    return {re.sub(r"[^\w\- ]", "", head.lower()).replace(" ", "-") for head in shown}


def links(pages):
    for name, text in pages.items():
        for target in re.findall(r"\]\(([^)\s]+)\)", prose(text)):
            path, _, anchor = target.partition("#")
            to = (TOP / name).parent.joinpath(path).resolve() if path else TOP / name
            is_there = TOP in (to, *to.parents) and to.exists()
            if is_there and anchor:
                is_there = anchor in anchors(pages.get(to.relative_to(TOP).as_posix(), ""))
            yield is_there, f"{name}: the link {target} leads nowhere"


def sentences(text):
    """The sentences of the page's lines and of the cells of its tables, without marks."""
    text = re.sub(r"\]\([^)]*\)", "]", prose(text)).lower()
    lines = [line for line in text.splitlines() if not line.startswith(">")]
    for part in (cell for line in lines for cell in line.split("|")):
        for sentence in re.split(r"(?<=[.:;?!])\s+", part):
            words = [word.strip("._:-") for word in re.findall(r"[\w'._/:-]*\w[\w'._/:-]*", sentence)]
            if len(words) > WORDS_OF_A_SENTENCE:
                yield " ".join(words)


def repeated(pages):
    where = {}
    for name, text in pages.items():
        for sentence in set(sentences(text)):
            where.setdefault(sentence, []).append(name)
    for sentence, names in where.items():
        yield len(names) == 1, f"in {' and '.join(names)}: {sentence}"


def long_sentences(pages):
    text = re.sub(r"\]\([^)]*\)", "]", prose(pages["README.md"]))
    for part in (cell for line in text.splitlines() for cell in line.split("|")):
        for sentence in re.split(r"(?<=[.?!])\s+", part):
            is_short = len(re.findall(r"[\w'`._/:-]+", sentence)) <= WORDS_OF_A_SENTENCE_IN_README
            yield is_short, f"README.md has a sentence of over {WORDS_OF_A_SENTENCE_IN_README} words: {sentence}"


def all_below(graph, name):
    return set(graph.get(name, ())).union(*(all_below(graph, it) for it in graph.get(name, ())))


def crates(pages):
    """What a crate stands on in the table is what it stands on by crates.txt, with what that stands on."""
    lines = TOP.joinpath("crates.txt").read_text(encoding="utf-8").splitlines()
    named = [line.split("#")[0].partition(":") for line in lines if line.split("#")[0].strip()]
    true = {words.split()[0]: set(below.split()) - PARTS_OF_STD for words, _, below in named}
    rows = re.findall(r"^\| \[`(\w+)`\].*\| (.*) \|$", pages["docs/LAYERS.md"], flags=re.M)
    said = {name: set(re.findall(r"`(\w+)`", below)) for name, below in rows}
    for name in sorted({*true, *said}):
        is_so = name in said and name in true and all_below(said, name) == all_below(true, name)
        yield is_so, f"docs/LAYERS.md: {name} doesn't stand as in crates.txt"


def versions(pages):
    """The version of the command line is that of the packages in Rust, and the newest in CHANGELOG.md."""
    of = TOP.joinpath("crates/tracerun_command_line/src/lib.rt").read_text(encoding="utf-8")
    version = re.search(r'\.version\("(.*)"\)', of)[1]
    newest = re.search(r"^## (\S+)", pages["CHANGELOG.md"], flags=re.M)[1]
    yield newest == version, f"CHANGELOG.md begins with {newest}, and the version is {version}"
    for name in ("rust/Cargo.toml", "rust/Cargo.lock", "rust/tracing/Cargo.toml"):
        text = TOP.joinpath(name).read_text(encoding="utf-8")
        yield f'\nversion = "{version}"\n' in text, f"{name}: its version isn't {version}"


def first_program(pages):
    """README's first program is the one that tests/tracing.py runs, its second one that of the Rust package."""
    first = re.search(r"^```rust\n(.*?)^```$", pages["README.md"], flags=re.M | re.S)[1]
    run = TOP.joinpath("tests/tracing/programs/src/bin/readme.rs").read_text(encoding="utf-8")
    yield first == run, "README.md's first program isn't tests/tracing/programs/src/bin/readme.rs"
    (_, lines), (tested,) = (re.findall(r"^```rust\n(.*?)^```$", pages[name], flags=re.M | re.S)
                             for name in ("README.md", "rust/README.md"))
    yield lines == tested, "README.md's ten lines aren't those of rust/README.md, which cargo test runs"


def without_imports(text):
    return "\n".join(line for line in text.splitlines() if not re.match(r"use |ghost use |//! ", line)).strip()


def caller(pages):
    """CALLING's program and its proofs are those that the gate proves and runs, but for their imports."""
    shown = re.findall(r"^```(?:rust|text)\n(.*?)^```$", pages["crates/span_registry/CALLING.md"], flags=re.M | re.S)
    where = TOP / "crates/span_registry_tests"
    proofs = where / "proofs/tests/registry/caller"
    run = [where / "src/tests/registry/caller.rt", proofs / "one_span/Invariants.antt", proofs / "run/Answers.antt"]
    yield len(shown) == len(run), "CALLING has other blocks than a program and two proofs"
    for text, path in zip(shown, run):
        kept = path.read_text(encoding="utf-8").split("\n#[test]")[0]
        yield without_imports(text) == without_imports(kept), f"CALLING has another text than {path.relative_to(TOP)}"


def show_words(pages):
    rows = {name: (words_of(pages.get(name, "")), most) for name, most in MOST.items()}
    rows["in all"] = sum(found for found, _ in rows.values()), ALL
    print(f"{'page':44}{'has':>8}{'may have':>10}")
    for name, (found, most) in rows.items():
        print(f"{name:44}{found:8,}{most:10,}")
    for name, script in MADE.items():
        print(f"{name:44}{words_of(pages.get(name, '')):8,}  made by {script}")


def main():
    if sys.argv[1:] not in ([], ["--words"]):
        sys.exit(__doc__)
    pages, passed, failed = read_pages(), 0, 0
    looks = lengths, links, repeated, long_sentences, crates, versions, first_program, caller
    for is_good, said in (it for look in looks for it in look(pages)):
        passed, failed = passed + is_good, failed + (not is_good)
        if not is_good:
            print(f"FAILED {said}")
    if sys.argv[1:]:
        show_words(pages)
    print(f"{passed} passed, {failed} failed")
    return 1 if failed else 0


if __name__ == "__main__":
    sys.exit(main())
