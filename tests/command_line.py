#!/usr/bin/env python3
"""Runs the built program on command lines: orders, requests for help and for the version, and wrong ones.

usage: command_line.py [--program FILE]
An order is followed, with nothing on standard error. A request and a wrong line end with 2 and write nothing on standard
output, and standard error says what was asked for, or what is wrong. `replay` alone, `why` and a storm of two workers are
worked cases in tests/cases. The last line is 'N passed, M failed'; the status is 0 where nothing failed.
"""
import argparse
import os
import re
import subprocess
import sys

from random_scripts import is_built
from run_cases import TOP, current_program, shown
from storms import written

SECONDS = 120
SCRIPT = b'{"op":"new","name":"a"}\n'  # a run of it would write something

ABOUT = "Runs scripts of calls, and storms of workers, on the span registry."
ABOUT_REPLAY = "Runs the script of standard input, and writes to standard output what its calls answer and its layers are told."
ABOUT_WHY = (
    "Runs the lines of the script of standard input, and writes to standard output which spans are open then, and why."
)
ABOUT_STORM = "Has workers call one registry at the same time, and writes to standard output how it ended."
REPLAY_EXAMPLE = "tracerun replay < examples/first.jsonl"
WHY_EXAMPLE = "tracerun why < examples/leak.jsonl"
STORM_EXAMPLE = "tracerun storm --workers 4 --rounds 100"

HELP = [
    ABOUT,
    "Usage: tracerun <COMMAND>",
    "Commands:",
    "replay " + ABOUT_REPLAY,
    "why " + ABOUT_WHY,
    "storm " + ABOUT_STORM,
    "help Print this message or the help of the given subcommand(s)",
    "Options:",
    "-h, --help Print help",
    "-V, --version Print version",
    "docs/FORMATS.md describes scripts, what is written, and the statuses.",
    "Examples:",
    REPLAY_EXAMPLE,
    WHY_EXAMPLE,
    STORM_EXAMPLE,
]
REPLAY_HELP = [
    ABOUT_REPLAY,
    "Usage: tracerun replay",
    "Options:",
    "-h, --help Print help",
    "A script has a JSON object on each line. docs/FORMATS.md describes scripts, what is written, and the statuses.",
    "Example:",
    REPLAY_EXAMPLE,
]
WHY_HELP = [
    ABOUT_WHY,
    "Usage: tracerun why [OPTIONS]",
    "Options:",
    "--span <LABEL> Tells of the span alone that this label names",
    "-h, --help Print help",
    "The script is one for replay. docs/FORMATS.md describes scripts, what is written, and the statuses.",
    "Examples:",
    WHY_EXAMPLE,
    "tracerun why --span query < examples/leak.jsonl",
]
STORM_USAGE = "Usage: tracerun storm --workers <N> --rounds <M>"
STORM_HELP = [
    ABOUT_STORM,
    STORM_USAGE,
    "Options:",
    "--workers <N> How many workers there are, 1 to 16",
    "--rounds <M> How many rounds each worker makes, 1 to 400",
    "-h, --help Print help",
    "Each worker has a thread of its own and makes nine calls a round. docs/FORMATS.md describes them, what is written, "
    "and the statuses.",
    "Example:",
    STORM_EXAMPLE,
]
with open(os.path.join(TOP, "crates/tracerun_command_line/src/lib.rt"), encoding="utf-8") as source:
    VERSION = ["tracerun " + re.search(r'\.version\("(.*)"\)', source.read())[1]]
FILES = [it.split()[-1] for it in (REPLAY_EXAMPLE, WHY_EXAMPLE)]

# The words, and all that standard error says.
REQUESTS = [
    ("--version", VERSION),
    ("-V", VERSION),
    ("--help", HELP),
    ("-h", HELP),
    ("help", HELP),
    ("replay --help", REPLAY_HELP),
    ("help replay", REPLAY_HELP),
    ("why --help", WHY_HELP),
    ("help why", WHY_HELP),
    ("storm --help", STORM_HELP),
    ("help storm", STORM_HELP),
    ("storm --workers 1 --rounds 1 --help", STORM_HELP),
]

# The words, and the numbers of workers and rounds.
STORMS = [
    ("storm --rounds=400 --workers=16", 16, 400),
    ("storm --workers 1 --rounds 1", 1, 1),
    ("storm --workers 01 --rounds 003", 1, 3),
    (STORM_EXAMPLE.split(" ", 1)[1], 4, 100),
]

LACKING = "error: the following required arguments were not provided:"
# The words, and how standard error begins.
WRONG = [
    ("", ["error: 'tracerun' requires a subcommand but one was not provided", "[subcommands: replay, why, storm, help]"]),
    ("jump", ["error: unrecognized subcommand 'jump'"]),
    ("help jump", ["error: unrecognized subcommand 'jump'"]),
    ("replay x", ["error: unexpected argument 'x' found"]),
    ("replay storm --workers 1 --rounds 1", ["error: unexpected argument 'storm' found"]),
    ("why x", ["error: unexpected argument 'x' found"]),
    ("why --span", ["error: a value is required for '--span <LABEL>' but none was supplied"]),
    ("why --span a --span b", ["error: the argument '--span <LABEL>' cannot be used multiple times"]),
    ("storm", [LACKING, "--workers <N>", "--rounds <M>", STORM_USAGE]),
    ("storm --workers 2", [LACKING, "--rounds <M>", STORM_USAGE]),
    ("storm --rounds 2", [LACKING, "--workers <N>", STORM_USAGE]),
    ("storm --workers 1 --rounds 1 x", ["error: unexpected argument 'x' found"]),
    ("storm --workers 1 --rounds", ["error: a value is required for '--rounds <M>' but none was supplied"]),
    ("storm --workers --rounds 1", ["error: a value is required for '--workers <N>' but none was supplied"]),
    ("storm --workers 1 --rounds 1 --workers 1", ["error: the argument '--workers <N>' cannot be used multiple times"]),
    ("storm --workers 1 --rounds 1 --rounds=2", ["error: the argument '--rounds <M>' cannot be used multiple times"]),
    ("storm --workers -1 --rounds 1", ["error: unexpected argument '-1' found"]),
]

# A number's option, the number, and what is wrong with it.
NO_DIGIT = "invalid digit found in string"
WRONG_NUMBERS = [
    ("workers", "0", "0 is not in 1..=16"),
    ("workers", "17", "17 is not in 1..=16"),
    ("workers", "-1", "-1 is not in 1..=16"),
    ("workers", "4294967297", "4294967297 is not in 1..=16"),  # 1 if it wrapped at 2^32
    ("workers", "18446744073709551617", "number too large to fit in target type"),
    ("workers", "two", NO_DIGIT),
    ("workers", "1.0", NO_DIGIT),
    ("workers", " 1", NO_DIGIT),
    ("workers", "", "cannot parse integer from empty string"),
    ("rounds", "0", "0 is not in 1..=400"),
    ("rounds", "401", "401 is not in 1..=400"),
    ("rounds", "-1", "-1 is not in 1..=400"),
    ("rounds", "4294967297", "4294967297 is not in 1..=400"),
    ("rounds", "18446744073709551617", "number too large to fit in target type"),
]

NO_TEXT = ["error: a word of the command line isn't UTF-8"]
WORDS_THAT_ARE_NO_TEXT = [
    [b"\xff"],
    [b"replay", b"\xc3"],
    [b"storm", b"--workers", b"1", b"--rounds", b"\xed\xa0\x80"],  # half of a pair of surrogates
]


def wrong_number(option, number, reason):
    """The words, and how standard error begins."""
    name = {"workers": "--workers <N>", "rounds": "--rounds <M>"}[option]
    other = {"workers": "--rounds=1", "rounds": "--workers=1"}[option]
    return ["storm", other, f"--{option}={number}"], [f"error: invalid value '{number}' for '{name}': {reason}"]


def lines_of(text):
    """Its lines but the empty ones. How many blanks a column of help has is not compared."""
    return [" ".join(it.split()) for it in text.decode("utf-8", "replace").splitlines() if it.strip()]


def differs(program, words, status, output, lines, goes_on=False):
    """Says what differs from the wanted status, output and lines of standard error, which may go on; or nothing."""
    # (the texts have the name by which the program was called)
    words = ["tracerun", *words]
    try:
        run = subprocess.run(words, executable=program, input=SCRIPT, capture_output=True, timeout=SECONDS)
    except subprocess.TimeoutExpired:
        return f"not over after {SECONDS} seconds"
    said = lines_of(run.stderr)
    is_said = said[: len(lines)] == lines if goes_on else said == lines
    if (run.returncode, run.stdout) == (status, output) and is_said:
        return None
    return f"status {run.returncode}, standard output\n{shown(run.stdout)}standard error\n{shown(run.stderr)}"


def rows():
    """The words, and what is wanted of them."""
    for words, lines in REQUESTS:
        yield words.split(), (2, b"", lines)
    for words, workers, rounds in STORMS:
        yield words.split(), (0, written(workers, rounds), [])
    for words, lines in WRONG:
        yield words.split(), (2, b"", lines, True)
    for row in WRONG_NUMBERS:
        words, lines = wrong_number(*row)
        yield words, (2, b"", lines, True)
    for words in WORDS_THAT_ARE_NO_TEXT:
        yield words, (2, b"", NO_TEXT)


def names_what_is_there():
    """Whether the files that the help names are there."""
    return all(os.path.isfile(os.path.join(TOP, it)) for it in ("docs/FORMATS.md", *FILES))


def main():
    parser = argparse.ArgumentParser(description="Runs the built program on command lines.")
    parser.add_argument("--program", default="", type=current_program)
    given = parser.parse_args()
    if not is_built(given.program):
        print("the program is not built")
        print("0 passed, 1 failed")
        return 1
    passed = failed = 0
    for words, wanted in rows():
        found = differs(given.program, words, *wanted)
        if found is None:
            passed += 1
        else:
            failed += 1
            print(f"FAILED {words}: {found}")
    if names_what_is_there():
        passed += 1
    else:
        failed += 1
        print("FAILED the help's files: one isn't there")
    print(f"{passed} passed, {failed} failed")
    return 1 if failed else 0


if __name__ == "__main__":
    sys.exit(main())
