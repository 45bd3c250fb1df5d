#!/usr/bin/env python3
"""Looks whether each public word of specs/ has one definition.

    words.py [--all] [--same]

A public word is one that docs/MODEL.md has. It is counted where it is defined, so one that a crate gives again, by
`pub use`, counts once. A word with more than one definition fails: it has two meanings that want two names, or one
meaning that wants one place.

A word of SHUT is opened in one file alone: it fails where another file opens it, or gives it another name.

With --all it prints how many public words each crate defines. With --same it prints which words have the same
definition but for their names, those of what they bind, and those of words that are themselves the same; a row is a
place to look. The last line is 'N passed, M failed', and the status is 0 where nothing failed.
"""
import re
import sys
from collections import Counter
from pathlib import Path

from clauses import WORD, Repository
from model_page import TOP, files_of

# What the proofs in one file alone may show.
SHUT = {"LacksMemory": "crates/span_outlet/proofs/memory/Refused.antt"}


def public_words(top):
    """The modules that define each public word, as CRATE.MODULE."""
    where = {}
    for crate in sorted(path.name for path in top.joinpath("crates").iterdir()):
        for module, file in files_of(crate, top):
            for word, _ in file.words:
                where.setdefault(word, []).append(f"{crate}.{module}")
    return where


def defined_again(where):
    """What fails of the public words: nothing for each that has one definition."""
    for word, modules in sorted(where.items()):
        yield None if len(modules) == 1 else f"{word} has {len(modules)} definitions: {' '.join(modules)}"


def opened(top, shut):
    """What fails of the words that one file alone opens: nothing for each that no other file opens."""
    texts = {path.relative_to(top).as_posix(): path.read_text(encoding="utf-8")
             for folder in ("src", "specs", "proofs") for path in sorted(top.glob(f"crates/*/{folder}/**/*"))
             if path.suffix in (".rt", ".antt")}
    for word, home in shut.items():
        opens = re.compile(rf"\bunfold(?:ing)?\b.*\b{word}\b|\b{word} as\b")
        found = [path for path, text in texts.items() if opens.search(text)]
        yield None if found == [home] else f"{word} is opened in {' '.join(found) or 'no file'}, and {home} alone may"


def clauses_of(definition):
    """A definition's lines without comments; those of a function or a relation without its type."""
    lines = [re.sub(r"(^|\s)(--|//).*", "", line) for line in definition.lines]
    at = next((i for i, line in enumerate(lines[1:], 1) if re.match(re.escape(definition.name) + r"(\s|$)", line)), 0)
    return "\n".join(lines[at:])


def shape(definition, repository, classes):
    """A definition with a number for each name that it binds, and for each word of specs/ the class of that word."""
    spec, bound = repository.specs[definition.module], {}

    def named(match):
        name = match[1]
        if match.string[match.start() - 1:match.start()] == ".":
            return name
        if name == definition.name:
            return "ITSELF"
        if name not in spec.names and name not in spec.inner and name not in spec.imports:
            return f"${bound.setdefault(name, len(bound))}"
        module, original = spec.imports.get(name, (definition.module, name))
        found = repository.find(module, original)
        is_word = found and original == found.name and found.kind != "code"
        return str(classes.get((module, original), f"{module}.{original}")) if is_word else original

    return " ".join(WORD.sub(named, clauses_of(definition)).split())


def same_words(top, where):
    """The public words whose definitions are the same, in groups. All pass for the same until something differs."""
    repository = Repository(str(top))
    keys = [(f"Rattle.{crate}.specs.{module}", word) for word, modules in where.items()
            for crate, module in (it.split(".") for it in modules)]
    found = {key: repository.specs[key[0]].names[key[1]] for key in keys if key[1] in repository.specs[key[0]].names}
    classes, before = dict.fromkeys(found, 0), 0
    while before != len(set(classes.values())):
        before, numbers = len(set(classes.values())), {}
        shapes = {key: (classes[key], shape(it, repository, classes)) for key, it in found.items()}
        classes = {key: numbers.setdefault(said, len(numbers)) for key, said in shapes.items()}
    groups = {}
    for key, number in classes.items():
        groups.setdefault(number, []).append(".".join((*key[0].split(".")[1::2], key[1])))
    return [sorted(group) for group in groups.values() if len(group) > 1]


def main():
    if not {*sys.argv[1:]} <= {"--all", "--same"}:
        sys.exit(__doc__)
    where, passed, failed = public_words(TOP), 0, 0
    for said in [*defined_again(where), *opened(TOP, SHUT)]:
        passed, failed = passed + (said is None), failed + (said is not None)
        if said:
            print(f"FAILED {said}")
    if "--all" in sys.argv:
        for crate, number in Counter(it.partition(".")[0] for modules in where.values() for it in modules).items():
            print(f"{crate}: {number}")
        print(f"in all {len(where)} public words")
    for group in same_words(TOP, where) if "--same" in sys.argv else []:
        print(f"the same: {' '.join(group)}")
    print(f"{passed} passed, {failed} failed")
    return 1 if failed else 0


if __name__ == "__main__":
    sys.exit(main())
