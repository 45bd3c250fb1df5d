#!/usr/bin/env python3
"""Keeps what was measured in files, and fills the pages from them, so that no figure stands in a page without a source.

usage: figures.py [--write]

bench/figures/NAME.json says when something was measured, where, on which commit, by what command and who says so, and
what came out: records in `rows`, or numbers by their names in `values`. What isn't known of it is `not known`, but for
the commit, and in `landed` the one of the history with which that came, where it isn't there itself.
- `table` has the columns of a table of the rows: of each its head (a blank after it makes it another one), and its
  cells as Python's `format` writes them. A cell whose value a row hasn't is empty. The table stands in a page between
  `<!-- figures NAME -->` and `<!-- end -->`, with a line that says where it comes from.
- `says` has for each page the texts in which values stand there, written likewise; none for one that has a picture.
  The page has a link to the file.
- `from` stands in a file whose figures past_figures.py takes from a page of an earlier commit.

What measures writes any other by `record`, which keeps `table` and `says`. With --write the pages get what the files
say; without it they are compared. No other figure may stand in a page, but for those in NOT_MEASURED: no table with a
column of numbers, no cell that is a number, no number with a point, and none with a unit that is measured, be it in
words. The last line is 'N passed, M failed'.
"""
import datetime
import json
import os
import platform
import re
import shlex
import string
import subprocess
import sys
from pathlib import Path

from pages import FIGURES, TOP, prose, read_pages

FOLDER = TOP / "bench/figures"
SOURCE = ("date", "machine", "processors", "commit", "toolchain", "command", "source")
MEASURED = "measured by this command"
NUMBERS = re.compile(r"^\|[-:| ]*-:[-:| ]*$", flags=re.M)
FIGURE = re.compile(
    r"(?<![\w.,/^-])\d[\d,]*(?:\.\d+)? ?(?:ns|ms|s|%|MB|GB|min|minutes?|hours?|seconds?|times|instructions)(?!\w)"
    r"|(?<![\w.,/])\d[\d,]*\.\d+(?![\w.]\d|\w)|\| \d[\d,]* (?=\|)"
    r"|\b(?:an?|some|two|three|four|five|six|seven|eight|nine|ten|\w+teen|\w+ty) "
    r"(?:minutes?|hours?|(?:milli|micro|nano)second|\w*seconds|[MG]B|times as)\b"
    r"|\b(?:twice|half) the (?:time|CPU|memory|instructions)\b")
VERSION = re.compile(r"\b(?:Python|Rust|rustc|glibc|Linux|tracing-subscriber)`? [\d.]+\d")
# What looks like a figure, by page: an input, a wish, a bound that is set or part of a format.
NOT_MEASURED = {
    "bench/README.md": ["2 GB of memory"],
    "crates/span_benchmark/README.md": ["15 MB each"],
    "docs/CONTRIBUTING.md": ["at most 75 minutes"],
    "docs/FORMATS.md": ["60 seconds"],
    "rust/README.md": ["(1.82 or later)"], "rust/tracing/README.md": ["| 4,096"],
    "rust/tracing-subscriber/README.md": ["| 8,191", "| 51,380,224", "| 4,294,967,295"],
}


def said_by(*words, at=TOP):
    """The last line that a command prints, where it is there and succeeds."""
    try:
        done = subprocess.run(words, cwd=at, capture_output=True, text=True)
    except OSError:
        return "not known"
    return done.stdout.strip().splitlines()[-1] if done.returncode == 0 and done.stdout.strip() else "not known"


def machine():
    names = re.findall(r"^model name\s*: (.*)$", Path("/proc/cpuinfo").read_text(), flags=re.M)
    return names[0] if names else platform.machine()


def record(name, rows=(), values=None, at=TOP, beside=None, how=""):
    """Writes a file of what the running script measured of a checkout, or of it beside another one, and how."""
    path = FOLDER / f"{name}.json"
    before = json.loads(path.read_text(encoding="utf-8")) if path.exists() else {}
    others = [":!bench/figures", ":!*.md", ":!*.svg"]  # a run's second file finds its first one changed
    differs = said_by("git", "diff", "HEAD", "--", *others, at=at) != "not known"
    commit = said_by("git", "describe", "--always", at=at) + "-dirty" * differs
    commit += f", beside {said_by('git', 'describe', '--always', at=beside)}" if beside else ""
    script = Path(sys.argv[0]).resolve().relative_to(TOP).as_posix()
    data = {
        "date": datetime.date.today().isoformat(), "machine": machine(), "processors": os.cpu_count(),
        "commit": commit, "toolchain": said_by("rt", "version"),
        "command": shlex.join([script, *sys.argv[1:]]), "source": MEASURED + how,
        "values": values or {}, "rows": list(rows), "table": before.get("table", {}), "says": before.get("says", {}),
    }
    FOLDER.mkdir(exist_ok=True)
    path.write_text(json.dumps(data, indent=1, ensure_ascii=False) + "\n", encoding="utf-8")


def read_figures():
    return {path.stem: json.loads(path.read_text(encoding="utf-8")) for path in sorted(FOLDER.glob("*.json"))}


def names_in(template):
    return [name for _, name, _, _ in string.Formatter().parse(template) if name]


def cell(template, row):
    return "" if any(row.get(name) is None for name in names_in(template)) else template.format(**row)


def line(cells):
    return "|" + "".join(f" {it} |" if it else " |" for it in cells)


def said_of(data):
    """When and where it was measured, and who says so."""
    machine = "machine not known" if data["machine"] == "not known" else data["machine"]
    place = f"{data['date']}, {machine}, {data['processors']} processors"
    landed = f", landed with {data['landed']}" if "landed" in data else ""
    return f"{place}, commit {data['commit']}{landed}; {data['source'].replace(MEASURED, 'measured by a script')}"


def block(name, data, page):
    """The table of a file for a page, and the line below it."""
    heads, cells = [head.strip() for head in data["table"]], list(data["table"].values())
    lines = [line(heads), "|---|" + "---:|" * (len(heads) - 1)]
    lines += [line(cell(it, row) for it in cells) for row in data["rows"]]
    to = os.path.relpath(FOLDER / f"{name}.json", (TOP / page).parent)
    return "\n".join(lines) + f"\n\n*[{said_of(data)}]({to}).*\n"


def pattern_of(template):
    """What finds a text in its page, whatever stands in place of its values."""
    parts = string.Formatter().parse(template)
    return "".join(re.escape(text) + ("" if name is None else r"-?\w(?:[\w,.]*\w)?") for text, name, _, _ in parts)


def filled(page, text, figures):
    """The page as the files say it is."""
    def fill(found):
        data = figures.get(found[1])
        return f"<!-- figures {found[1]} -->\n{block(found[1], data, page)}<!-- end -->" if data else found[0]

    text = FIGURES.sub(fill, text)
    for data in figures.values():
        for template in data["says"].get(page, []):
            text = re.sub(pattern_of(template), lambda _: template.format(**data["values"]), text)
    return text


def sources(figures, pages):
    """Each file says where its figures come from, has what its texts name, and stands in a page."""
    used = {name for text in pages.values() for name in FIGURES.findall(text)}
    for name in sorted(used | {*figures}):
        data = figures.get(name, {})
        yield all(data.get(it) for it in SOURCE), f"bench/figures/{name}.json doesn't say each of {', '.join(SOURCE)}"
        yield data.get("commit") != "not known", f"bench/figures/{name}.json doesn't say of which commit"
        is_scripts = "from" in data or data.get("source", "").startswith(MEASURED)
        yield is_scripts, f"no script wrote bench/figures/{name}.json"
        told = {it for texts in data.get("says", {}).values() for text in texts for it in names_in(text)}
        told |= {it for text in data.get("table", {}).values() for it in names_in(text)}
        had = {*data.get("values", {})}.union(*data.get("rows", []))
        yield told <= had, f"bench/figures/{name}.json has no {', '.join(sorted(told - had))}"
        stands = set(data.get("says", {})) if name not in used else {*pages}
        yield stands and stands <= {*pages}, f"what bench/figures/{name}.json has stands in no page"


def texts(figures, pages):
    """Each text stands in its page once, what its numbers are is what its file has, and the page links the file."""
    for name, data in figures.items():
        for page, templates in data["says"].items():
            to = os.path.relpath(FOLDER / f"{name}.json", (TOP / page).parent)
            is_linked = not templates or f"]({to})" in pages[page]
            yield is_linked, f"{page} has figures of bench/figures/{name}.json, and no link to it"
            for template in templates:
                found, text = re.findall(pattern_of(template), pages[page]), template.format(**data["values"])
                yield found == [text], f"{page}, by bench/figures/{name}.json: {text}; it has {found or 'nothing'}"


def tables(figures, pages):
    for page, text in pages.items():
        for found in FIGURES.finditer(text):
            is_same = found[1] in figures and filled(page, found[0], figures) == found[0]
            yield is_same, f"{page}: its figures {found[1]} aren't those of the file: tests/figures.py --write"


def strangers(figures, pages):
    """The figures of pages that no file has."""
    for page, text in pages.items():
        for data in figures.values():
            for template in data["says"].get(page, []):
                text = text.replace(template.format(**data["values"]), "")
        text = re.sub(r"\]\([^)]*\)", "]", VERSION.sub("", prose(text)))
        for it in NOT_MEASURED.get(page, []):
            text = text.replace(it, "")
        found = FIGURE.findall(text) + ["a table of numbers"] * len(NUMBERS.findall(text))
        yield not found, f"{page}: no file of bench/figures has {'; '.join(found)}"


def main():
    if sys.argv[1:] not in ([], ["--write"]):
        sys.exit(__doc__)
    figures, pages, passed, failed = read_figures(), read_pages(), 0, 0
    for look in (sources, texts, tables, strangers):
        if look is texts and failed:
            break  # the others take the files as they are
        if look is texts and sys.argv[1:]:
            pages = {page: filled(page, text, figures) for page, text in pages.items()}
            for page, text in pages.items():
                (TOP / page).write_text(text, encoding="utf-8")
        for is_good, said in look(figures, pages):
            passed, failed = passed + bool(is_good), failed + (not is_good)
            if not is_good:
                print(f"FAILED {said}")
    print(f"{passed} passed, {failed} failed")
    return 1 if failed else 0


if __name__ == "__main__":
    sys.exit(main())
