#!/usr/bin/env python3
"""Runs the program tracerun unproved, by `rt try`; `./tracerun` does so where the proved one isn't there or is older.

usage: unproved.py WORD..
`rt try` compiles the program, with checks at each access and each sum, and gives its output when it has ended. What it
says itself stands last on standard error and is not shown where the program ended: standard output, standard error and
the status are the program's. Else the status is 4, and standard error says why there is no answer.
"""
import os
import re
import subprocess
import sys

from running import TOP, exit_at_signals, tell

# What rt try says at the end where the program ended, behind what the program wrote to standard error.
ENDED = re.compile(rb"(?:interpreter: .*\n)?checked: ended status=(\d+)\n(?:races: .*\n)?run=ended .*\n\Z")
NO_ANSWER = re.compile(rb"^checked: no-answer: (.*)\n", re.M)


def tried(words):
    """What rt try writes to standard output and to standard error."""
    with subprocess.Popen(["rt", "try", "--", *words], cwd=TOP / "crates/tracerun", stdout=subprocess.PIPE,
                          stderr=subprocess.PIPE) as rt:
        try:
            return rt.communicate()
        finally:
            rt.terminate()  # (where this is broken off)


def main():
    exit_at_signals()
    output, errors = tried(sys.argv[1:])
    ended, no_answer, status = ENDED.search(errors), NO_ANSWER.search(errors), 4
    if ended:
        errors, status = errors[: ended.start()], int(ended[1])
        try:
            while output:
                output = output[os.write(1, output):]
        except OSError:  # (the program ends so too)
            errors, status = b"device: write failed\n", 3
    if ended or not no_answer:
        sys.stderr.buffer.write(errors)
        sys.stderr.flush()
    if not ended:
        why = f": {no_answer[1].decode(errors='replace')}" if no_answer else ", and says why above"
        limit = "; ./tracerun --prove builds the program that has no such limit" if no_answer else ""
        tell(f"rt try gives no answer{why}{limit}")
    return status


if __name__ == "__main__":
    sys.exit(main())
