#!/usr/bin/env python3
"""Runs `tracerun replay` and `tracerun why` on devices that fail: at each read and each write in turn, at the flush,
and in other ways.

Where a read fails nothing is written and standard error is `device: read failed`; where a write fails what went out is
a front of the script's text and standard error is `device: write failed`; the status is 3 then. A device that moves one
byte at a time changes nothing. A write that is interrupted is made again; a read that is interrupted is one that
failed. The last line is 'N passed, M failed'.

usage: failing_devices.py [--program FILE]
"""
import argparse
import os
import subprocess
import sys
import tempfile

from refused_memory import HERE, ORDERS, PROGRAM, SCRIPTS, compiler

NOTICE = 9
READ_FAILED = b"device: read failed\n"
WRITE_FAILED = b"device: write failed\n"
TOO_LONG = b"line 0: too long\n"
MOST_CALLS = 100  # of a run with more the first ones alone are refused in turn, and the last one


def long_script():
    """Its text takes several writes."""
    made = [f'{{"op":"new","name":"span{n}","fields":[["k","{"v" * 50}"]]}}\n' for n in range(6000)]
    closed = [f'{{"op":"close","span":"span{n}"}}\n' for n in range(5000)]
    turns = (f"{new}{close}" for new, close in zip(made, closed))
    return '{"op":"layer"}\n' + "".join([*turns, *made[5000:]])


LONG = "x" * 40_000
LONG_LINES = "".join([
    '{"op":"layer"}\n',
    f'{{"op":"event","message":"{LONG}"}}\n',
    f'{{"op":"new","name":"a","target":"{LONG}"}}\n',
])
ALL_SCRIPTS = {
    **SCRIPTS, "a text of several writes": long_script(), "lines longer than a buffer": LONG_LINES, "no line": "",
}


class Runs:
    """Runs of the program, and how many of them ended as they should."""

    def __init__(self, words, shim):
        self.words, self.shim = words, shim
        self.passed = self.failed = 0

    def run(self, script, **variables):
        """The status, what was written, standard error, and the calls: `r` and `w` for each."""
        # From a file, so that each run reads by the same calls.
        with tempfile.TemporaryFile() as notices, tempfile.TemporaryFile() as source:
            source.write(script.encode())
            source.seek(0)
            os.dup2(notices.fileno(), NOTICE)
            try:
                found = subprocess.run(
                    self.words, stdin=source, capture_output=True, timeout=60,
                    env={"LD_PRELOAD": self.shim, **variables}, pass_fds=[NOTICE],
                )
            finally:
                os.close(NOTICE)
            notices.seek(0)
            calls = notices.read()
        return found.returncode, found.stdout, found.stderr, calls

    def wants(self, what, is_so, found):
        self.passed, self.failed = self.passed + bool(is_so), self.failed + (not is_so)
        if not is_so:
            status, text, errors, *_ = found
            print(f"{what}: status {status}, standard error {errors!r}, {len(text)} bytes written")


def in_turn(count):
    """The numbers of the calls that fail in turn."""
    return sorted({*range(1, min(count, MOST_CALLS) + 1), count} - {0})


def each_call_fails(runs, name, script):
    whole = runs.run(script)
    status, text, errors, calls = whole
    reads, writes = calls.count(b"r"), calls.count(b"w")
    runs.wants(f"{name}: there are reads", reads > 0, whole)
    runs.wants(f"{name}: there are writes", writes > 0 or text == b"", whole)
    for number in in_turn(reads):
        found = runs.run(script, FAIL=f"read {number}")
        runs.wants(f"{name}: read {number} fails", found[:3] == (3, b"", READ_FAILED), found)
        found = runs.run(script, INTERRUPT=f"read {number}")
        runs.wants(f"{name}: read {number} is interrupted", found[:3] == (3, b"", READ_FAILED), found)
    for number in in_turn(writes):
        found = runs.run(script, FAIL=f"write {number}")
        good = found[0] == 3 and found[2] == WRITE_FAILED and text.startswith(found[1])
        runs.wants(f"{name}: write {number} fails", good, found)
        found = runs.run(script, INTERRUPT=f"write {number}")
        runs.wants(f"{name}: write {number} is interrupted", found[:3] == (status, text, errors), found)
    for device in ("read", "write"):
        found = runs.run(script, SHORT=device)
        more = found[3].count(device[:1].encode()) >= calls.count(device[:1].encode())
        good = found[:3] == (status, text, errors) and more
        runs.wants(f"{name}: each {device} moves one byte", good, found)
    print(f"{name}: {reads} reads and {writes} writes, each failed and each interrupted")


def between(words, source, target):
    found = subprocess.run(words, stdin=source, stdout=target, stderr=subprocess.PIPE, timeout=60)
    return found.returncode, b"", found.stderr


def other_devices(runs, folder):
    """A full disk, a pipe that nobody reads, an input without end, and inputs that can't be read."""
    script = os.path.join(folder, "script")
    with open(script, "w", encoding="utf-8") as file:
        file.write(SCRIPTS["every operation"])
    with open(script, "rb") as source, open("/dev/full", "wb") as full:
        found = between(runs.words, source, full)
        runs.wants("a full disk", found == (3, b"", WRITE_FAILED), found)
    reading, writing = os.pipe()
    os.close(reading)
    with open(script, "rb") as source, os.fdopen(writing, "wb") as pipe:
        found = between(runs.words, source, pipe)
        runs.wants("a pipe that nobody reads", found == (3, b"", WRITE_FAILED), found)
    output = os.path.join(folder, "output")
    for what, path, wanted in (
        ("an input without end", "/dev/zero", (1, b"", TOO_LONG)), ("a folder as input", folder, (3, b"", READ_FAILED))
    ):
        source = os.open(path, os.O_RDONLY)
        with open(output, "wb") as target:
            found = between(runs.words, source, target)
        os.close(source)
        runs.wants(what, found == wanted and os.path.getsize(output) == 0, found)


def main():
    parser = argparse.ArgumentParser(description=__doc__, formatter_class=argparse.RawDescriptionHelpFormatter)
    parser.add_argument("--program", default=PROGRAM)
    words = parser.parse_args()
    with tempfile.TemporaryDirectory() as folder:
        shim = os.path.join(folder, "fail_device.so")
        source = os.path.join(HERE, "fail_device.c")
        subprocess.run([compiler(), "-O1", "-shared", "-fPIC", "-nostdlib", "-o", shim, source], check=True)
        of_orders = [Runs([words.program, order], shim) for order in ORDERS]
        for runs in of_orders:
            for name, script in ALL_SCRIPTS.items():
                each_call_fails(runs, f"{runs.words[1]}: {name}", script)
            other_devices(runs, folder)
    passed, failed = sum(it.passed for it in of_orders), sum(it.failed for it in of_orders)
    print(f"{passed} passed, {failed} failed")
    return 1 if failed else 0


if __name__ == "__main__":
    sys.exit(main())
