#!/usr/bin/env python3
"""Makes docs/MODEL.md from the comments of specs/, or says whether it is what they say today.

    model_page.py [--write]

Crates stand in the order of crates.txt, files in that of the crate's Lib.antt, but behind those that they use, words
in that of their file. What only the proofs of a crate need, in specs/inside/, is left out. A word with no comment of
its own fails. Without --write nothing is changed; the last line is 'N passed, M failed', and the status is 0 where
nothing failed.
"""
import re
import sys
from pathlib import Path
from typing import NamedTuple

TOP = Path(__file__).resolve().parent.parent
PAGE = TOP / "docs" / "MODEL.md"
PUBLIC = re.compile(r"(?:(?:abbrev|unfoldable) )?pub (?:(?:record|data|abbrev|unfoldable) )?([^\W\d][\w'-]*)(?= |$)")

HEAD = """# The model: what the contracts speak of

<!-- tests/model_page.py --write makes this page. -->

Contracts see plain values: numbers, lists, finite maps, texts as bytes. This page has the definitions of `specs/` that
public clauses cite, each with its comment, in the order in which they are to be read. A name that begins with a capital
letter is a type or a relation, another one a function.

No count is kept in the model: it has holders and *live* spans, and a closing list is what a comparison of two forests
leaves over. A call is a relation between the value before it and the value after it; `Outcome` says the same as a
function. Two refusals are in no function, since no model can foresee them: that the outlet has no place, and want of
memory.

Worked cases, computed from the definitions alone, stand in `proofs/Examples.antt` of most crates, of whole scripts in
`span_replay`'s `proofs/Scripts.antt`, of arrays of bytes in `span_ffi`'s `proofs/DataExamples.antt`.
"""


class File(NamedTuple):
    """A file of specs/: its own comment, and its public words, each with its comment."""

    said: str
    words: list


def joined(comment):
    """A comment's lines as one text, in which marks of Markdown outside of code stand for themselves."""
    parts = re.split(r"(`[^`]*`)", " ".join(line[2:].strip() for line in comment))
    return "".join(it if it.startswith("`") else re.sub(r"([*_<\[])", r"\\\1", it) for it in parts)


def read(path):
    said, words, comment, is_first, margin = "", [], [], True, ""
    for line in path.read_text(encoding="utf-8").splitlines():
        margin = "  " if line.startswith("module ") else margin  # (what has a module's parameters stands further in)
        line = line[len(margin):] if line.startswith(margin) else line
        if line.startswith("-- ----"):
            comment = []
        elif line.startswith("--"):
            comment.append(line)
        else:
            if is_first and comment:
                said = joined(comment)
            elif found := PUBLIC.match(line):
                if not line.startswith(("pub mod ", "pub use ")):
                    words.append((found[1], joined(comment)))
            is_first, comment = False, []
    return File(said, words)


def files_of(crate, top=TOP):
    """The files of a crate's specs/, in the order in which its Lib.antt names them."""
    specs = top / "crates" / crate / "specs"
    if not (specs / "Lib.antt").exists():
        return []
    named = re.findall(r"^pub mod (\w+)", (specs / "Lib.antt").read_text(encoding="utf-8"), flags=re.M)
    return [(name, read(specs / f"{name}.antt")) for name in named if name != "inside"]


def in_reading_order(crate, files):
    """The files, each behind those of the crate whose words it uses, else in the order of Lib.antt."""
    of, left = dict(files), [name for name, _ in files]
    uses = {name: {*re.findall(rf"^use Rattle\.{crate}\.specs\.(\w+)\.", TOP.joinpath(
        f"crates/{crate}/specs/{name}.antt").read_text(encoding="utf-8"), flags=re.M)} for name in left}
    while left:
        first = next((name for name in left if not uses[name] & {*left} - {name}), left[0])
        left.remove(first)
        yield first, of[first]


def page():
    """The page, and the words with no comment, as CRATE.FILE.WORD."""
    text, silent = [HEAD], []
    for line in (TOP / "crates.txt").read_text(encoding="utf-8").splitlines():
        crate = re.match(r"\w*", line)[0]
        files = [(name, file) for name, file in in_reading_order(crate, files_of(crate)) if file.words] if crate else []
        text += [f"## `{crate}`\n"] if files else []
        for name, file in files:
            text += [f"**{name}**: {file.said}\n", "".join(f"- `{word}`: {said}\n" for word, said in file.words)]
            silent += [f"{crate}.{name}.{word}" for word, said in file.words if not said]
    return "\n".join(text), silent


def main(arguments):
    if arguments not in ([], ["--write"]):
        sys.exit(__doc__)
    text, silent = page()
    if arguments:
        PAGE.write_text(text, encoding="utf-8")
    is_current = PAGE.read_text(encoding="utf-8") == text
    if not is_current:
        print("docs/MODEL.md isn't what the comments say: python3 tests/model_page.py --write")
    for word in silent:
        print(f"{word} has no comment that says what it means")
    failed = (not is_current) + len(silent)
    print(f"{int(is_current) + int(not silent)} passed, {failed} failed")
    return 1 if failed else 0


if __name__ == "__main__":
    sys.exit(main(sys.argv[1:]))
