#!/usr/bin/env python3
"""Tries edits that the checker must refuse, each at the function and the goal that its first line names.

usage: refused_at.py [--jobs N] crates/NAME/must-fail/WHAT.edit..

Each edit is made in a copy of the sources, where `rt check --only FUNCTION` has to leave the goal open that the line
`# refused at: FUNCTION GOAL` names. What the check says of an edit that is not refused so is shown: with `?` for the
goal it tells the goals. The last line is 'N passed, M failed'. `./check` runs it on one edit, and tries all by
`rt ci`.
"""
import argparse
import re
import shutil
import subprocess
import sys
import tempfile
from pathlib import Path

TOP = Path(__file__).resolve().parent.parent


def copy_sources(to):
    """The sources alone, with nothing that was built of them."""
    for name in ("crates.txt", "HANDLES"):
        shutil.copy(TOP / name, to)
    shutil.copytree(TOP / "crates", to / "crates", ignore=shutil.ignore_patterns("out", "must-fail"))


def edited(text, crate):
    """The files of the crate that the edit changes, with what they are then."""
    file, old, texts = None, None, {}
    for word, rest in re.findall(r"^(file|old|new): (.*)$", text, re.M):
        if word == "file":
            file = crate / rest.strip()
            texts.setdefault(file, file.read_text(encoding="utf-8"))
        elif word == "old":
            old = rest
        else:
            if texts[file].count(old) != 1:
                raise ValueError(f"its old text stands in {file.name} {texts[file].count(old)} times: {old}")
            texts[file] = texts[file].replace(old, rest)
    return texts


def is_refused(crate, text, jobs):
    """Whether the edit, made in this copy of its crate, is refused where it says, and what the check said."""
    function, goal = re.search(r"^# refused at: (\S+) (\S+)$", text, re.M).groups()
    words = ["rt", "check", "--only", function, *(["--jobs", jobs] if jobs else [])]
    ran = subprocess.run(words, cwd=crate, stdin=subprocess.DEVNULL, stdout=subprocess.PIPE, stderr=subprocess.STDOUT,
                         encoding="utf-8", errors="replace")
    refuses = re.search(rf"^fn {re.escape(crate.name)}::{re.escape(function)}: (not proved|no proof)", ran.stdout, re.M)
    return ran.returncode == 1 and bool(refuses) and f"`{goal}`" in ran.stdout, ran.stdout


def try_edit(path, copy, jobs):
    """Whether the edit is refused where it says, with the copy as it was afterwards."""
    text = path.read_text(encoding="utf-8")
    crate = copy / "crates" / path.resolve().parent.parent.name
    texts = edited(text, crate)
    before = {file: file.read_text(encoding="utf-8") for file in texts}
    for file, new in texts.items():
        file.write_text(new, encoding="utf-8")
    refused, said = is_refused(crate, text, jobs)
    for file, old in before.items():
        file.write_text(old, encoding="utf-8")
    print(f"{crate.name}/{path.stem}: {'refused' if refused else f'NOT REFUSED where it says: {said}'}", flush=True)
    return refused


def main():
    parser = argparse.ArgumentParser(description=__doc__, formatter_class=argparse.RawDescriptionHelpFormatter)
    parser.add_argument("--jobs", help="of rt check")
    parser.add_argument("edits", nargs="+", type=Path)
    given = parser.parse_args()
    with tempfile.TemporaryDirectory(prefix="refused-at-") as copy:
        copy_sources(Path(copy))
        refused = [try_edit(path, Path(copy), given.jobs) for path in given.edits]
    print(f"{sum(refused)} passed, {len(refused) - sum(refused)} failed")
    return 0 if all(refused) else 1


if __name__ == "__main__":
    sys.exit(main())
