#!/usr/bin/env python3
"""Runs the programs with each of their growths refused in turn: alone, and with all that follow it.

A growth is an allocation, or a thread that is made. `tracerun replay` and `tracerun why` have to end with the status 3
and `out of memory` on standard error, after a front of the text that the script means, or as a run that nothing was
refused (where they can do without the memory). `refused_memory` runs its rows one by one. It makes a call that was refused
again, and has to end as a run that nothing was refused; its lines that begin with `+` may be missing some, since notes
that are refused memory are counted in their place. A call that takes no memory is made with each growth refused. The
last line is 'N passed, M failed'.

`tracerun storm`, of two workers and one round, has three ends. Two have the status 3 and nothing on standard output:
with `out of memory` on standard error, and with `refused: out of memory`, where a worker's call was refused it. The
third has the status 0 and the numbers of a storm with memory, but that notes which lacked some are counted by
`refused` in place of `lines`: at most one where one growth was refused, and none where the storm can do without it.
The threads make their growths in another order in each run, so each run has to have one of the three ends, and each of
them, the third with a note that was missed, has to be met before a run that nothing was refused. Where all growths
after the first were refused too, the third end shows that the numbers themselves are written without memory.

usage: refused_memory.py [--program FILE] [--refused-memory FILE]
"""
import argparse
import os
import shutil
import subprocess
import sys
import tempfile

HERE = os.path.dirname(os.path.abspath(__file__))
CRATES = os.path.join(os.path.dirname(HERE), "crates")
PROGRAM = os.path.join(CRATES, "tracerun", "out", "tracerun")
REFUSED_MEMORY = os.path.join(CRATES, "refused_memory", "out", "refused_memory")
NOTICE = 9

SCRIPTS = {
    "every operation": """{"op":"limits","workers":2,"slots":8}
{"op":"layer","spans":15}
{"op":"layer","form":"json","rule":[["app","INFO"],["db","TRACE"]]}
{"op":"new","name":"a","fields":[["k","1"]]}
{"op":"new","name":"b","parent":"a","target":"db","level":"DEBUG","label":"child"}
{"op":"enter","span":"a","w":1}
{"op":"event","message":"x\\ny","fields":[["k","v"]],"w":1}
{"op":"record","span":"child","fields":[["k","2"]]}
{"op":"clone","span":"a"}
{"op":"close","span":"a"}
{"op":"find","span":"child"}
{"op":"exit","span":"a","w":1}
{"op":"close","span":"child"}
""",
    "spans that are left to the tidying": "".join(
        f'{{"op":"new","name":"s{n}"}}\n{{"op":"enter","span":"s{n}"}}\n' for n in range(40)
    ),
    "a fault of the script": '{"op":"new","name":"a"}\n{"op":"new","name":"a"}\n',
    "a child that keeps its parent open": """{"op":"layer"}
{"op":"new","name":"a"}
{"op":"new","name":"b","parent":"a"}
{"op":"close","span":"a"}
{"op":"close","span":"b"}
""",
    "a span that one of two layers refuses": """{"op":"layer","spans":1}
{"op":"layer","spans":1,"rule":[["app","INFO"]]}
{"op":"new","name":"a"}
{"op":"enter","span":"a"}
{"op":"new","name":"q","target":"lib"}
{"op":"enter","span":"q"}
{"op":"new","name":"c"}
{"op":"event","message":"hi","fields":[["k","v"]]}
""",
    "notes in both forms": """{"op":"layer","form":"json"}
{"op":"layer"}
{"op":"new","name":"a","fields":[["k","1"]]}
{"op":"record","span":"a","fields":[["k","2"]]}
{"op":"event","level":"WARN","message":"x\\ny"}
{"op":"close","span":"a"}
""",
}

# The orders that read a script.
ORDERS = ("replay", "why")

# A storm, how many notes its layer has, and the standard errors with which it may end early.
STORM = ["storm", "--workers", "2", "--rounds", "1"]
NOTES = 14
STOPPED = {b"out of memory\n", b"refused: out of memory\n"}

# Rows whose calls all take no memory. In each other run some growth has to be met.
WITHOUT_GROWTH = {"row plain"}

# What is refused from a growth on.
MODES = {"alone": "0", "with all after it": "1"}


def compiler():
    """The C compiler: `$CC`, `cc`, or the one that the toolchain links with."""
    doc = subprocess.run(["rt", "doc"], capture_output=True, text=True).stdout.strip() if shutil.which("rt") else ""
    own = os.path.join(os.path.dirname(doc), "toolchain", "bin", "clang")
    for name in (os.environ.get("CC"), "cc", own):
        if name and shutil.which(name):
            return name
    sys.exit("refused_memory.py: there is no C compiler: set CC")


def run(words, shim, number, mode, script="", marked="0"):
    """The status, what was written, standard error, and whether a growth was refused."""
    reading, writing = os.pipe()
    try:
        os.dup2(writing, NOTICE)
        found = subprocess.run(
            words, input=script.encode(), capture_output=True, timeout=60, pass_fds=[NOTICE],
            env={"LD_PRELOAD": shim, "REFUSE": str(number), "REST": MODES[mode], "MARKED": marked},
        )
    finally:
        os.close(writing)
        os.close(NOTICE)
    with os.fdopen(reading, "rb") as notices:
        refused = b"x" in notices.read()
    return found.returncode, found.stdout, found.stderr, refused


def in_turn(name, mode, judge):
    """Runs `judge` of each number until nothing was refused. How many runs passed, and how many failed."""
    passed, failed, number = 0, 0, 1
    while True:
        wrong, was_refused = judge(number)
        passed, failed = passed + (not wrong), failed + bool(wrong)
        if wrong:
            print(f"{name}, growth {number} {mode}: {wrong}")
        if not was_refused or failed > 20:
            print(f"{name}: {number - 1} growths, each refused {mode}")
            return passed, failed + ((number == 1) != (name in WITHOUT_GROWTH))
        number += 1


def given(words, shim, script, mode):
    """Judges an order of the program on a script."""
    *with_memory, _ = run(words, shim, 0, mode, script)
    whole = with_memory[1]

    def judge(number):
        *ended, was_refused = run(words, shim, number, mode, script)
        status, text, errors = ended
        stopped = status == 3 and errors == b"out of memory\n" and whole.startswith(text)
        if ended == with_memory or (was_refused and stopped):
            return "", was_refused
        return (f"status {status}, standard error {errors!r}, {len(text)} bytes of {len(whole)}, "
                f"a front: {whole.startswith(text)}"), was_refused

    return judge


def numbers(missed):
    """What the storm writes where so many of its notes were missed."""
    return (f"workers 2\nrounds 1\nmade 4\nclosed 4\ncalls 18\n"
            f"lines {NOTES - missed}\nrefused {missed}\nleft 0\n").encode()


def stormed(program, shim, mode):
    """Judges `tracerun storm`."""
    most = 1 if mode == "alone" else NOTES
    with_missed = {numbers(missed) for missed in range(1, most + 1)}
    met = set()

    def judge(number):
        status, text, errors, was_refused = run([program, *STORM], shim, number, mode)
        stopped = was_refused and (status, text) == (3, b"") and errors in STOPPED
        missed = was_refused and (status, errors) == (0, b"") and text in with_missed
        if stopped or missed:
            met.add(errors)
        elif (status, text, errors) != (0, numbers(0), b""):
            return f"status {status}, standard error {errors!r}, standard output {text!r}", was_refused
        if not was_refused and met != {b"", *STOPPED}:
            return f"of the ends only those with the standard errors {sorted(met)} were met", was_refused
        return "", was_refused

    return judge


def is_part(some, all_of_them):
    """Whether the items of `some` stand in `all_of_them`, in the same order."""
    rest = iter(all_of_them)
    return all(item in rest for item in some)


def answers(text):
    """The lines of a run but for the marks, and of these the lines that may be missed."""
    lines = [line for line in text.splitlines() if not line.startswith(b". ")]
    return [line for line in lines if not line.startswith(b"+ ")], [line for line in lines if line.startswith(b"+ ")]


def used(program, shim, row, mode):
    """Judges a row of `refused_memory`, by what it writes where nobody refuses anything."""
    told, lines = answers(subprocess.run([program, row], capture_output=True, timeout=60, check=True).stdout)

    def judge(number):
        status, text, errors, was_refused = run([program, row], shim, number, mode, marked="1")
        now_told, now_lines = answers(text)
        if (status, errors, now_told) == (0, b"", told) and is_part(now_lines, lines):
            return "", was_refused
        last = now_told[-1] if now_told else b""
        return f"status {status}, standard error {errors!r}, last line {last!r}", was_refused

    wrong, _ = judge(0)
    return (lambda number: (f"with memory for all but the calls that take none: {wrong}", False)) if wrong else judge


def rows_of(program):
    """The names of the rows."""
    text = subprocess.run([program], capture_output=True, timeout=60, check=True).stdout.decode()
    return [line[3:] for line in text.splitlines() if line.startswith("== ")]


def main():
    parser = argparse.ArgumentParser(description=__doc__, formatter_class=argparse.RawDescriptionHelpFormatter)
    parser.add_argument("--program", default=PROGRAM)
    parser.add_argument("--refused-memory", default=REFUSED_MEMORY)
    words = parser.parse_args()
    passed = failed = 0
    with tempfile.TemporaryDirectory() as folder:
        shim = os.path.join(folder, "refuse_memory.so")
        source = os.path.join(HERE, "refuse_memory.c")
        subprocess.run([compiler(), "-O1", "-shared", "-fPIC", "-nostdlib", "-o", shim, source], check=True)
        judges = [(f"{order}: {name}", mode, given([words.program, order], shim, script, mode))
                  for order in ORDERS for name, script in SCRIPTS.items() for mode in MODES]
        judges += [("storm", mode, stormed(words.program, shim, mode)) for mode in MODES]
        judges += [(f"row {row}", mode, used(words.refused_memory, shim, row, mode))
                   for row in rows_of(words.refused_memory) for mode in MODES]
        for name, mode, judge in judges:
            good, bad = in_turn(name, mode, judge)
            passed, failed = passed + good, failed + bad
    print(f"{passed} passed, {failed} failed")
    return 1 if failed else 0


if __name__ == "__main__":
    sys.exit(main())
