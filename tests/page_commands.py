#!/usr/bin/env python3
"""Looks at the commands in the pages: that each program, script, folder, file and option that they name is there.

usage: page_commands.py [--list]

A command is a line of a block of `sh` or of an indented block, or code in a line, that begins as BEGINS says. It is
looked at from the top of the repository and from its page's folder, and after `cd` from there. A file that it makes
needs a folder. An option, and a word in small letters after a program of the repository, have to stand in the source of
what they are passed to. Scripts have to compile. Nothing is run: run_commands.py does that. With --list it prints each
command. The last line is 'N passed, M failed'.
"""
import re
import subprocess
import sys
from pathlib import Path

from pages import TOP, read_pages

BEGINS = re.compile(r"\(?(?:\./|cd |rt |python3 |cargo |git |cp |grep |cc |(?:bench|rust|tests|tools)/|[A-Z_]+=\S* )")
CRATES = {path.parent.parent.name for path in TOP.glob("crates/*/src/main.rt")}
OF_RT = {"all", "check", "ci", "doc", "fmt", "lib", "must-fail", "plant", "run", "test", "tidy", "try", "verdict",
         "version"}
# What isn't of the repository, is built, or stands for any name.
PLACEHOLDER = re.compile(r"[*<>$\"{}]|\.\.|^/|(?:^|/)(?:[A-Z][A-Z_]*|out|target)(?:$|[./])")


def commands_of(text):
    """The commands of a page."""
    text = re.sub(r"<!--.*?-->", "", text, flags=re.S)
    fenced = re.findall(r"^```sh\n(.*?)^```", text, flags=re.S | re.M)
    text = re.sub(r"^```.*?^```", "", text, flags=re.S | re.M)
    found = [line for block in fenced for line in block.splitlines()]
    found += re.findall(r"^    (\S.*)$", text, flags=re.M)
    found += re.findall(r"`([^`\n]+)`", re.sub(r"^    .*$", "", text, flags=re.M))
    is_program = re.compile(r"(?:%s) [a-z]" % "|".join(sorted(CRATES)))
    return [re.sub(r"\s+# .*", "", it) for it in found if BEGINS.match(it) or is_program.match(it)]


def steps(command):
    """The simple commands of a line, each as its words, and whether it ends what began with '(': without what stands in
    $(..), and what its output goes to."""
    command = re.sub(r"\$\([^()]*(?:\([^()]*\))*[^()]*\)", "$", command)
    for part in re.split(r"&&|;| \| ", command):
        ends = part.strip().endswith(")")
        part = re.sub(r">>? *\S+", "", part.strip().strip("()")).replace("< ", "")
        words = [word for word in part.split() if not re.match(r"[A-Z_]+=|\[", word)]
        if words:
            yield words, ends


def is_there(name, places):
    """Whether a file is there, or the folder in which it is to be made."""
    paths = [place / name for place in places]
    return any(path.exists() or path.parent.is_dir() and not Path(name).suffix for path in paths)


def source_of(program):
    """The text that says which options and words a program of the repository takes."""
    crates = [program.name] if program.name in CRATES else []
    crates += ["tracerun_command_line"] if program.name == "tracerun" else []
    files = [program] if program.is_file() else []
    files += [path for crate in crates for path in TOP.glob(f"crates/{crate}/src/**/*.rt")]
    if program.name == "check":
        files.append(TOP / "tests/parts.py")
    return "\n".join(path.read_text(encoding="utf-8", errors="replace") for path in files)


def faults_of_words(program, words, places):
    source = source_of(program)
    for word in words:
        if word.startswith("--"):
            option = word.split("=")[0]
            if option not in source and option[2:] not in re.findall(r"[\w-]+", source):
                yield f"{program.name} knows no {option}"
        elif "/" in word and not PLACEHOLDER.search(word):
            if not is_there(word, places):
                yield f"{word} isn't there"
        elif program.name in CRATES or "|" in word:
            for it in word.split("|"):
                if re.fullmatch(r"[a-z][a-z-]*", it) and it not in source:
                    yield f"{program.name} knows no {it}"


def faults_of_cargo(words, places):
    if "--manifest-path" in words:
        places = [TOP / words[words.index("--manifest-path") + 1]]
        places = [path.parent for path in places if path.is_file()]
    for option, folder in (("--example", "examples"), ("--test", "tests"), ("--bin", "src/bin")):
        for name in (after for word, after in zip(words, words[1:]) if word == option):
            made = [place / folder / it for place in places for it in (f"{name}.rs", f"{name}/main.rs")]
            if not any(path.is_file() for path in made):
                yield f"cargo finds no {option} {name}"
    if not places:
        yield "there is no such manifest"


def faults_of_script(path):
    text = path.read_text(encoding="utf-8", errors="replace")
    if path.suffix == ".py" or text.startswith("#!/usr/bin/env python3"):
        try:
            compile(text, str(path), "exec")
        except SyntaxError as error:
            yield f"{path.name} doesn't compile: {error}"
    elif text.startswith("#!/usr/bin/env bash"):
        if subprocess.run(["bash", "-n", str(path)], stdin=subprocess.DEVNULL, capture_output=True).returncode:
            yield f"{path.name} is no script for bash"


def faults_of_step(words, places):
    name, rest = words[0], words[1:]
    if name == "rt":
        yield from (f"there is no rt {it}" for it in rest[:1] if it not in OF_RT)
    elif name == "cargo":
        yield from faults_of_cargo(rest, places)
    elif name in CRATES:
        yield from faults_of_words(TOP / "crates" / name, rest, places)
    elif name == "python3" or "/" in name:
        script, rest = (rest[0], rest[1:]) if name == "python3" else (name, rest)
        found = [path for path in (place / script for place in places) if path.exists()]
        if not found and not PLACEHOLDER.search(script):
            yield f"{script} isn't there"
        for path in found[:1]:
            yield from faults_of_script(path) if path.is_file() else ()
            yield from faults_of_words(path, rest, places)


def faults(command, places):
    at = places
    for words, ends in steps(command):
        if words[0] == "cd":
            at = [place / words[1] for place in at if (place / words[1]).is_dir()] or (
                at if PLACEHOLDER.search(words[1]) else [])
            if not at:
                yield f"there is no folder {words[1]}"
                return
        else:
            yield from faults_of_step(words, at)
        at = places if ends else at


def main():
    if sys.argv[1:] not in ([], ["--list"]):
        sys.exit(__doc__)
    passed = failed = 0
    for name, text in read_pages().items():
        for command in commands_of(text):
            found = list(faults(command, [TOP, (TOP / name).parent]))
            passed, failed = passed + (not found), failed + bool(found)
            if sys.argv[1:]:
                print(f"{name}: {command}")
            for fault in found:
                print(f"FAILED {name}: {command}: {fault}")
    print(f"{passed} passed, {failed} failed")
    return 1 if failed else 0


if __name__ == "__main__":
    sys.exit(main())
