#!/usr/bin/env python3
"""Compares figures that pages of earlier commits tell, and that no command measured since, with those pages.

usage: past_figures.py [--write]

Such a file of bench/figures has in `from` the `commit` and the `page`, and
- `texts` of that page, with names in place of numbers; where a number stands in words, the text and what it means.
  {machine}, {processors}, {commit} and {date} are those of the measuring; where the page hasn't them they are not
  known, and the commit is the page's, whose day the measuring was at the latest;
- `rows`: lists of what a row is called, a text, which gives a row wherever the page has it, and texts with more of it.
Where the history has that commit, the numbers there have to be those of the file; with --write they are written, with
the day of the commit and the toolchain that its README names. Where it hasn't, as in a shallow clone, that is said. The
commit of any other file is to be in the history, or else the one with which it `landed`; where none is, that is said.
The last line is 'N passed, M failed'.
"""
import json
import re
import string
import subprocess
import sys

from figures import FOLDER, read_figures
from pages import TOP

NUMBER = r"\d+(?:,\d{3})*(?:\.\d+)?"
TEXTS = {"date": r"\d{4}-\d\d-\d\d", "machine": r"\w[^|\n]*?", "commit": r"[0-9a-f]{7,}"}
OTHERS = {**TEXTS, "processors": r"\w+"}
IN_WORDS = {"four": 4}
TOOLCHAIN = re.compile(r"^Proved with (?:the logic )?`(.*?)`", flags=re.M)


def in_history(*words):
    """What git prints of the history, where it has that."""
    done = subprocess.run(["git", *words], cwd=TOP, capture_output=True, text=True)
    return done.stdout if done.returncode == 0 else None


def pattern_of(text):
    parts = string.Formatter().parse(text)
    return "".join(re.escape(before) + (f"(?P<{name}>{OTHERS.get(name, NUMBER)})" if name else "")
                   for before, name, _, _ in parts)


def number(said):
    """A number as it is said, or any other text."""
    if re.fullmatch(NUMBER, said):
        said = said.replace(",", "")
        return float(said) if "." in said else int(said)
    return IN_WORDS.get(said, said)


def taken(text, page):
    """The values that a text has at each place where the page has it."""
    return [{name: it if name in TEXTS else number(it) for name, it in found.groupdict().items()}
            for found in re.finditer(pattern_of(text), page)]


def told(data):
    """What a file has to have by the page of its commit, and the texts that the page hasn't, or has in two ways."""
    source, faults, values, rows = data["from"], [], {}, []
    commit, name = source["commit"], source["page"]
    page = in_history("show", f"{commit}:{name}") or ""
    for text in source.get("texts", []):
        text, meant = (text, {}) if isinstance(text, str) else text
        found = taken(text, page)
        if not found or any(it != found[0] for it in found):
            faults.append(text)
        else:
            values.update(found[0], **meant)
    for called, *texts in source.get("rows", []):
        first, *more = [taken(text, page) for text in texts]
        faults += [text for text, found in zip(texts, [first, *more]) if not found]
        further = {name: it for found in more if found for name, it in found[0].items()}
        rows += [{**called, **row, **further} for row in first]
    beside = f", beside {source['beside']}" if "beside" in source else ""
    named = TOOLCHAIN.search(in_history("show", f"{commit}:README.md") or "")
    head = {
        "date": values.pop("date", None) or f"by {in_history('show', '-s', '--format=%cs', commit).strip()}",
        "machine": values.pop("machine", "not known"), "processors": values.pop("processors", "not known"),
        "commit": f"{values.pop('commit', commit)}, by its page{beside}",
        "toolchain": named[1] if named else "not known",
        "source": f"taken from {name} of {commit}", "values": values, "rows": rows,
    }
    return head, [f"{name} of {commit} hasn't: {it}" for it in faults]


def differences(data, head):
    """Each thing that the page tells: whether the file has it, and what isn't so."""
    for name, it in head.items():
        if name == "values":
            for value in sorted({*it, *data[name]}):
                pair = it.get(value), data[name].get(value)
                yield pair[0] == pair[1], f"{value} is {pair[0]} by the page, and {pair[1]} by the file"
        elif name == "rows":
            yield len(it) == len(data[name]), f"the page has {len(it)} rows, the file {len(data[name])}"
            for row, other in zip(it, data[name]):
                yield row == other, f"a row is {row} by the page, and {other} by the file"
        else:
            yield it == data[name], f"{name} is {it} by the page, and {data[name]} by the file"


def is_in_history(commit):
    return in_history("merge-base", "--is-ancestor", commit, "HEAD") is not None


def commits(figures):
    """Whether the commit with which a file's own one landed is in the history, and what isn't so."""
    for name, data in figures.items():
        if landed := data.get("landed"):
            yield is_in_history(landed), f"{name}: {landed}, with which its commit landed, isn't in the history"


def without_commit(figures):
    """The files of whose commits nothing is in the history."""
    of = {name: re.match(r"[0-9a-f]*", data["commit"])[0] for name, data in figures.items() if "landed" not in data}
    return [name for name, commit in of.items() if not is_in_history(commit)]


def main():
    if sys.argv[1:] not in ([], ["--write"]):
        sys.exit(__doc__)
    found, unknown = [], []
    for name, data in read_figures().items():
        if "from" not in data:
            continue
        if in_history("cat-file", "-e", data["from"]["commit"] + "^{commit}") is None:
            unknown.append(name)
            continue
        head, faults = told(data)
        if sys.argv[1:] and not faults:
            data.update(head)
            text = json.dumps(data, indent=1, ensure_ascii=False) + "\n"
            (FOLDER / f"{name}.json").write_text(text, encoding="utf-8")
        found += [(False, f"{name}: {it}") for it in faults]
        found += [(is_good, f"{name}: {said}") for is_good, said in differences(data, head)]
    if in_history("rev-parse", "--is-shallow-repository") == "false\n":
        found += commits(read_figures())
        if strange := without_commit(read_figures()):
            print(f"of a commit that isn't in the history, with no `landed` that is: {' '.join(strange)}")
    for is_good, said in found:
        if not is_good:
            print(f"FAILED bench/figures, {said}")
    failed = sum(not is_good for is_good, _ in found)
    if unknown:
        print(f"not compared, as the history isn't there: {' '.join(unknown)}")
    print(f"{len(found) - failed} passed, {failed} failed")
    return 1 if failed else 0


if __name__ == "__main__":
    sys.exit(main())
