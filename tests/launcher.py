#!/usr/bin/env python3
"""Runs the launcher `./tracerun` in small clones, with a command rt that compiles and proves nothing. It needs a C
compiler.

usage: launcher.py
Each row is a call, and compares its standard output, its standard error and its status. The last line is 'N passed,
M failed'; the status is 0 where nothing failed.
"""
import os
import pty
import re
import select
import shutil
import signal
import subprocess
import sys
import tempfile
import time

from refused_memory import compiler

TOP = os.path.dirname(os.path.dirname(os.path.realpath(__file__)))
SOURCE = "crates/tracerun_command_line/src/lib.rt"
VERSION = re.search(r'\.version\("(.*)"\)', open(f"{TOP}/{SOURCE}", encoding="utf-8").read())[1]
LOGIC = re.search(r"^Proved with the logic `(\w+)`", open(f"{TOP}/README.md", encoding="utf-8").read(), re.M)[1]
COPIED = ["tracerun", "README.md", "tools/page.txt", "tools/running.py", "tools/prove.py", "tools/unproved.py", SOURCE,
          "crates/tracerun/src/main.rt"]
PROGRAM = r"""
#include <stdio.h>
#include <string.h>

int main(int count, char **words) {
    char script[100] = "", *word = count > 1 ? words[1] : "";
    if (!strcmp(word, "storm")) return printf("%s: workers 4\n", KIND), 0;
    if (strcmp(word, "replay")) return fprintf(stderr, "error: unrecognized subcommand '%s'\n", word), 2;
    fread(script, 1, sizeof script - 1, stdin);
    if (!strcmp(script, "fault")) return fputs("line 1: not JSON\n", stderr), 1;
    if (printf("%s: %s\n", KIND, script) < 0 || fflush(stdout)) return fputs("device: write failed\n", stderr), 3;
    return 0;
}
"""
# What it does is as the variable RT says, else all goes well. `rt try` runs the words behind `--`. As the real one, it
# begins with what it kept, and proves the crates below where their proofs aren't there.
FAKE_RT = r"""#!/bin/sh
echo "$1 ${PWD##*/}" >> "$FAKE/calls"
proves() {
    sum=$(cat "$1"/src/*.rt | cksum)
    [ "$(cat "$1/out/rlib/stamp" 2> /dev/null)" != "$sum" ] || return
    echo "${1##*/}" >> "$FAKE/proofs"
    mkdir -p "$1/out/rlib" && echo "$sum" > "$1/out/rlib/stamp"
}
case $1-$RT in
    try-refuses) printf 'src/main.rt:1:1: error: no such name\nrun=none proved=no\n' >&2; exit 1 ;;
    try-faults) printf 'checked: fault kind=overflow\nrun=fault proved=no\n' >&2; exit 4 ;;
    try-is_long) echo start; printf 'checked: no-answer: more than a MiB\nrun=no-answer proved=no\n' >&2; exit 6 ;;
    try-hangs) exec sleep 60 ;;
    try-*) shift 2; "$FAKE/unproved" "$@" > "$FAKE/output.$$"; status=$?; cat "$FAKE/output.$$"; rm "$FAKE/output.$$"
        printf 'checked: ended status=%s\nraces: not looked for\nrun=ended status=%s proved=no\n' $status $status >&2
        exit $status ;;
esac
for below in $(sed -n "s/^${PWD##*/}\\b.*://p" ../../crates.txt); do [ ! -d ../$below ] || proves ../$below; done
[ "${PWD##*/}-$RT" != low-hangs ] || { echo "so far: 1 of 2 functions checked"; exec sleep 60; }
[ "${PWD##*/}-$RT" != low-is_slow ] || while [ ! -e "$FAKE/go" ]; do sleep 0.1; done
echo "rt: chose --jobs 4"
[ "${PWD##*/}-$RT" != low-begins ] || echo "rt: low: begins with what a check kept in /elsewhere/crates/low"
echo "so far: 0 of 2 functions checked; the verdict comes last"
[ "${PWD##*/}-$RT" != mid-hangs_later ] || exec sleep 60
[ "${PWD##*/}-$RT" != mid-lingers ] || { trap 'sleep 1; exit 1' TERM; echo "$$" > "$FAKE/lingers"; sleep 60 & wait; }
[ "${PWD##*/}-$RT" != low-refuses ] || { echo "fn low::it: not proved"; exit 1; }
proves "$PWD"
printf 'fn it: proved\nso far: 2 of 2 functions checked\nlogic=proved functions=2\n'
[ $1 = lib ] || { mkdir -p out && cp "$FAKE/proved" out/tracerun; }
"""
UNPROVED = "tracerun: this run is unproved: "
NOT_YET = f"{UNPROVED}the program is not proved on this machine yet"
PROVES_IT = "; ./tracerun --prove proves it\n"
TELLS = f"; rt try compiles it first, each time anew, and looks for no races of threads{PROVES_IT}"
FAULT = "line 1: not JSON\n"
NO_ANSWER = "tracerun: rt try gives no answer"


def write(path, text, mode=0o644):
    os.makedirs(os.path.dirname(path), exist_ok=True)
    with open(path, "w", encoding="utf-8") as file:
        file.write(text)
    os.chmod(path, mode)


class Clone:
    """A repository of three crates and one that the program doesn't stand on, and what surrounds it."""

    def __init__(self, folder, programs):
        self.at, self.fake, self.room = f"{folder}/clone", f"{folder}/fake", f"{folder}/room"
        self.told = {"calls": 0, "proofs": 0}  # of how many it was told
        os.mkdir(folder)
        os.mkdir(self.room)
        for name in COPIED:
            os.makedirs(os.path.dirname(f"{self.at}/{name}"), exist_ok=True)
            shutil.copy(f"{TOP}/{name}", f"{self.at}/{name}")
        write(f"{self.at}/HANDLES", "Handles allowed: none.\n")
        write(f"{self.at}/tools/prove_times.txt", "# times\nlow 2 60\nmid 2 90\ntracerun 3 30\n")
        write(f"{self.at}/crates.txt", "# all\nlow:\napart: low\nmid: low\ntracerun may_wait=2: low mid clap\n")
        for name in ("low", "mid", "apart"):
            write(f"{self.at}/crates/{name}/src/lib.rt", "pub fn it() {}\n")
        write(f"{self.fake}/bin/rt", FAKE_RT, 0o755)
        for kind in ("proved", "unproved"):
            shutil.copy(f"{programs}/{kind}", self.fake)

    def start(self, *words, script="a script", rt="", has_rt=True, **how):
        path = f"{self.fake}/bin:{os.environ['PATH']}" if has_rt else "/usr/bin:/bin"
        env = {**os.environ, "PATH": path, "FAKE": self.fake, "RT": rt, "TMPDIR": self.room}
        env["XDG_CACHE_HOME"] = f"{self.fake}/cache"
        self.script = tempfile.TemporaryFile("w+")
        self.script.write(script)
        self.script.seek(0)
        how = {"stdin": self.script, "stdout": subprocess.PIPE, "stderr": subprocess.PIPE, "text": True, **how}
        return subprocess.Popen([f"{self.at}/tracerun", *words], env=env, **how)

    def of_rt(self, command, crate):
        """Runs rt in the clone itself."""
        env = {**os.environ, "FAKE": self.fake, "RT": ""}
        subprocess.run([f"{self.fake}/bin/rt", command], cwd=f"{self.at}/crates/{crate}", env=env, check=True,
                       stdout=subprocess.DEVNULL)

    def run(self, *words, **how):
        return self.ended(self.start(*words, **how))

    def ended(self, run):
        output, errors = run.communicate(timeout=60)
        return output, errors, run.returncode

    def calls(self):
        """The calls of rt since this was asked last, and the folders of the crates where they were made."""
        return self.told_of("calls")

    def proofs(self):
        """The crates that rt proved since this was asked last."""
        return self.told_of("proofs")

    def told_of(self, what):
        path = f"{self.fake}/{what}"
        found = open(path, encoding="utf-8").read().splitlines() if os.path.exists(path) else []
        before, self.told[what] = self.told[what], len(found)
        return found[before:]

    def kept(self):
        """The crates that the clone has a proof of, and what else is left of a run."""
        rooms = f"{self.fake}/cache/kozhumir/proving"
        outs = [it for it in ("low", "mid", "tracerun") if os.path.exists(f"{self.at}/crates/{it}/out/rlib/stamp")]
        return outs, [it for it in os.listdir(rooms) if not it.endswith(".lock")]

    def timed(self):
        """The crates whose times are kept, each with its functions."""
        with open(f"{self.fake}/cache/kozhumir/prove_times", encoding="utf-8") as times:
            return [it.rsplit(maxsplit=1)[0] for it in times]

    def forgets(self):
        for crate in os.listdir(f"{self.at}/crates"):
            shutil.rmtree(f"{self.at}/crates/{crate}/out", ignore_errors=True)

    def is_tidy(self):
        return os.listdir(self.room) == []

    def reads_nothing(self):
        return os.lseek(self.script.fileno(), 0, os.SEEK_CUR) == 0


class Rows:
    def __init__(self):
        self.passed = self.failed = 0

    def wants(self, name, found, wanted):
        is_so = found == wanted
        self.passed, self.failed = self.passed + is_so, self.failed + (not is_so)
        if not is_so:
            print(f"FAILED {name}: {found!r}, wanted {wanted!r}")


def pages(rows, clone):
    for words, status in ((), 2), (("--help",), 0), (("help",), 0):
        output, errors, found = clone.run(*words)
        text = errors if status else output
        told = all(it in text for it in ("replay < ", "storm --workers", "--prove")) and output + errors == text
        rows.wants(f"{words}: the page", (told, found), (True, status))
    rows.wants("the version", clone.run("--version"), (f"tracerun {VERSION}\n", "", 0))
    told = "tracerun: replay reads the script of standard input: ./tracerun replay < a\\ b\n"
    rows.wants("a file's name", clone.run("replay", "a b"), ("", told, 2))
    told = "tracerun: --prove takes no further word\n"
    rows.wants("more than --prove", clone.run("--prove", "replay"), ("", told, 2))
    rows.wants("all that without rt", clone.calls(), [])
    for words in ("replay",), ("--prove",):
        output, errors, status = clone.run(*words, has_rt=False)
        told = all(it in errors for it in (f"One with the logic {LOGIC} does", "Linux on x86-64", "README.md says"))
        rows.wants(f"{words}: no rt", (output, told, status), ("", True, 4))
        rows.wants(f"{words}: no rt: the script", clone.reads_nothing(), True)


def unproved(rows, clone):
    rows.wants("unproved", clone.run("replay"), ("unproved: a script\n", NOT_YET + TELLS, 0))
    words = "storm", "--workers", "4", "--rounds", "100"
    rows.wants("a storm", clone.run(*words), ("unproved: workers 4\n", NOT_YET + TELLS, 0))
    rows.wants("a fault", clone.run("replay", script="fault"), ("", NOT_YET + TELLS + FAULT, 1))
    told = "error: unrecognized subcommand 'jump'\n"
    rows.wants("no subcommand", clone.run("jump"), ("", NOT_YET + TELLS + told, 2))
    found = clone.run("replay", stdout=None, preexec_fn=lambda: os.close(1))
    rows.wants("no standard output", found, (None, f"{NOT_YET}{TELLS}device: write failed\n", 3))
    with open("/dev/full", "w", encoding="utf-8") as full:
        found = clone.run("replay", stdout=full)
    rows.wants("a full disk", found, (None, f"{NOT_YET}{TELLS}device: write failed\n", 3))
    above, below = pty.openpty()
    os.write(above, b"typed\n\x04")
    output, errors, status = clone.run("replay", stdin=below)
    rows.wants("a terminal", (output, "waits for a script" in errors, status), ("unproved: typed\n\n", True, 0))
    two = [clone.start("replay") for _ in range(2)]
    rows.wants("two at once", [clone.ended(it) for it in two], [("unproved: a script\n", NOT_YET + TELLS, 0)] * 2)
    rows.wants("each by rt try", clone.calls(), ["try tracerun"] * 9)
    told = f"tracerun: {NOT_YET[len(UNPROVED):]}{PROVES_IT}"
    rows.wants("where the proved program is", clone.run("--program", has_rt=False), ("", told, 4))


def no_answers(rows, clone):
    told = f"src/main.rt:1:1: error: no such name\nrun=none proved=no\n{NO_ANSWER}, and says why above\n"
    rows.wants("refused", clone.run("replay", rt="refuses"), ("", NOT_YET + TELLS + told, 4))
    rows.wants("refused: the script", clone.reads_nothing(), True)
    output, errors, status = clone.run("replay", rt="faults")
    rows.wants("a fault of the program", (output, "kind=overflow" in errors, status), ("", True, 4))
    told = f"{NO_ANSWER}: more than a MiB; ./tracerun --prove builds the program that has no such limit\n"
    rows.wants("a long output", clone.run("replay", rt="is_long"), ("", NOT_YET + TELLS + told, 4))
    clone.calls()
    run = clone.start("replay", rt="hangs", start_new_session=True)
    while not clone.calls():
        time.sleep(0.1)
    os.killpg(run.pid, signal.SIGINT)
    rows.wants("broken off while it is tried", clone.ended(run), ("", NOT_YET + TELLS, 130))
    rows.wants("nothing is left", clone.is_tidy(), True)


def proving(rows, clone):
    output, errors, status = clone.run("--prove", rt="refuses")
    told = "tracerun: the program was not built: low is not proved\n"
    rows.wants("not proved", (output, errors.endswith(f"fn low::it: not proved\n{told}"), status), ("", True, 4))
    rows.wants("not proved: the program", os.path.exists(f"{clone.at}/crates/tracerun/out/tracerun"), False)
    above, below = pty.openpty()
    rows.wants("on a terminal", clone.run("--prove", rt="refuses", stderr=below), ("", None, 4))
    told = b""
    while select.select([above], [], [], 1)[0]:
        told += os.read(above, 65536)
    drawn = re.search(rb"\rtracerun: low \(0 of 7 functions, 0 min \d\d s, about 3 min left\)", told)
    rows.wants("on a terminal: one line", bool(drawn), True)
    run = clone.start("--prove", rt="hangs_later")
    calls = clone.calls()
    while "lib mid" not in calls:
        time.sleep(0.1)
        calls += clone.calls()
    run.send_signal(signal.SIGINT)
    output, errors, status = clone.ended(run)
    told = "low is proved (2 of 7 functions" in errors and "broken off" in errors
    rows.wants("broken off while it proves", (output, told, status), ("", True, 130))
    rows.wants("its calls", calls, ["lib low"] * 3 + ["lib mid"])
    rows.wants("what it kept", (clone.proofs(), *clone.kept()), (["low"], ["low"], []))
    run = clone.start("--prove", rt="lingers")
    while not os.path.exists(f"{clone.fake}/lingers"):
        time.sleep(0.1)
    for _ in range(2):
        run.send_signal(signal.SIGINT)
        time.sleep(0.3)
    rows.wants("broken off twice", (clone.ended(run)[0::2], *clone.kept()), (("", 130), ["low"], []))
    rows.wants("broken off twice: its calls", clone.calls(), ["lib low", "lib mid"])
    output, errors, status = clone.run("--prove")
    told = errors.startswith("tracerun: proving 3 crates (0 of 7 functions") and "proved and built" in errors
    rows.wants("proved", (output, told, "fn it" in errors, status), ("", True, False, 0))
    rows.wants("proved: its calls", clone.calls(), ["lib low", "lib mid", "run tracerun"])
    rows.wants("the times of the last run", clone.timed(), ["low 2", "mid 2", "tracerun 2"])
    rows.wants("proved: what was not yet", clone.proofs(), ["mid", "tracerun"])
    rows.wants("nothing is left", (clone.is_tidy(), *clone.kept()), (True, ["low", "mid", "tracerun"], []))
    os.remove(f"{clone.at}/crates/tracerun/out/tracerun")
    rows.wants("two that prove at once", two_at_once(clone), ([("", None, 0)] * 2, 1))


def two_at_once(clone):
    """How two that prove at once end, and how many of them say that they wait for the other one."""
    with tempfile.TemporaryFile("w+") as errors:
        two = [clone.start("--prove", rt="is_slow", stderr=errors) for _ in range(2)]
        waiting = "waits for another --prove"
        while waiting not in os.pread(errors.fileno(), 65536, 0).decode() and all(it.poll() is None for it in two):
            time.sleep(0.1)
        write(f"{clone.fake}/go", "")
        ended = [clone.ended(it) for it in two]
        return ended, os.pread(errors.fileno(), 65536, 0).decode().count(waiting)


def nothing_twice(rows, clone):
    """What is proved already, each time, and that the others are proved once."""
    every = ["low", "mid", "tracerun"]

    def wants(name, proofs):
        found = clone.run("--prove")
        rows.wants(name, (found[0::2], clone.proofs(), *clone.kept()), (("", 0), proofs, every, []))

    wants("from nothing", every)
    os.remove(f"{clone.fake}/cache/kozhumir/prove_times")
    write(f"{clone.at}/crates/mid/src/lib.rt", "pub fn other() {}\n")
    wants("after an edit", ["mid"])
    rows.wants("times of proofs from nothing alone", clone.timed(), [])
    clone.forgets()
    clone.run("--prove", rt="begins")
    rows.wants("after a check in another copy", (clone.proofs(), clone.timed()), (every, ["mid 2", "tracerun 2"]))
    clone.forgets()
    clone.of_rt("lib", "low")
    rows.wants("rt in the clone", clone.proofs(), ["low"])
    wants("after rt in the clone", ["mid", "tracerun"])
    clone.forgets()
    write(f"{clone.at}/crates/low/out/rlib/stamp", "of another make\n")
    rooms = f"{clone.fake}/cache/kozhumir/proving/{clone.at.strip('/').replace('/', '-')}"
    write(f"{rooms}/low/crates/low/out/rlib/stamp", "of another make\n")
    write(f"{rooms}/tracerun/crates/tracerun/out/tracerun", "old", 0o755)
    wants("over what another make left", every)
    clone.forgets()
    killed(rows, clone)
    wants("two after one that was killed", [])


def killed(rows, clone):
    """That the next run waits for what a killed one began, and begins with what that proved."""
    clone.calls()
    run = clone.start("--prove", rt="is_slow")
    while not clone.calls():
        time.sleep(0.1)
    run.kill()
    run.wait()
    with tempfile.TemporaryFile("w+") as errors:
        run = clone.start("--prove", stderr=errors)
        while "waits for another" not in os.pread(errors.fileno(), 65536, 0).decode() and run.poll() is None:
            time.sleep(0.1)
        rows.wants("after one that was killed: it waits", clone.calls(), [])
        write(f"{clone.fake}/go", "")
        rows.wants("after one that was killed", clone.ended(run)[0::2], ("", 0))
    found = clone.calls(), clone.proofs()
    rows.wants("its proofs", found, (["lib low", "lib mid", "run tracerun"], ["low", "mid", "tracerun"]))


def edited(rows, clone):
    """That what is edited while it proves isn't counted as proved."""
    run = clone.start("--prove", rt="is_slow")
    while not clone.calls():
        time.sleep(0.1)
    write(f"{clone.at}/crates/mid/src/lib.rt", "pub fn other() {}\n")
    write(f"{clone.fake}/go", "")
    rows.wants("an edit while it proves", clone.ended(run)[0::2], ("", 0))
    told = f"{UNPROVED}crates/mid/src/lib.rt is newer than the proved program{TELLS}"
    rows.wants("an edit while it proves: it isn't proved", clone.run("replay"), ("unproved: a script\n", told, 0))
    rows.wants("an edit while it proves: it is proved next", (clone.run("--prove")[2], clone.proofs()[-1]), (0, "mid"))


def proved(rows, clone):
    clone.run("--prove")
    clone.calls()
    rows.wants("all built", clone.run("replay"), ("proved: a script\n", "", 0))
    program = f"{clone.at}/crates/tracerun/out/tracerun\n"
    rows.wants("where it is", clone.run("--program", has_rt=False), (program, "", 0))
    rows.wants("all built: a fault", clone.run("replay", script="fault"), ("", FAULT, 1))
    rows.wants("proved already", clone.run("--prove")[0::2], ("", 0))
    write(f"{clone.at}/crates/apart/src/lib.rt", "pub fn other() {}\n")
    rows.wants("a newer source that it doesn't stand on", clone.run("replay"), ("proved: a script\n", "", 0))
    rows.wants("all that without rt", clone.calls(), [])
    write(f"{clone.at}/crates/low/src/lib.rt", "pub fn other() {}\n")
    told = f"{UNPROVED}crates/low/src/lib.rt is newer than the proved program{TELLS}"
    rows.wants("a newer source", clone.run("replay"), ("unproved: a script\n", told, 0))
    os.rename(f"{clone.at}/crates/low", f"{clone.at}/crates/lower")
    output, errors, status = clone.run("--prove")
    rows.wants("a crate that isn't there", (output, "not built" in errors, status), ("", True, 4))
    rows.wants("a newer source, no rt", clone.run("--prove", has_rt=False)[0::2], ("", 4))


def compile_programs(folder):
    write(f"{folder}/program.c", PROGRAM)
    for kind in ("proved", "unproved"):
        words = [f'-DKIND="{kind}"', "-o", f"{folder}/{kind}", f"{folder}/program.c"]
        subprocess.run([compiler(), *words], check=True)


def main():
    rows = Rows()
    with tempfile.TemporaryDirectory() as folder:
        compile_programs(folder)
        for part in (pages, unproved, no_answers, proving, nothing_twice, edited, proved):
            part(rows, Clone(f"{folder}/for_{part.__name__}", folder))
    print(f"{rows.passed} passed, {rows.failed} failed")
    return 1 if rows.failed else 0


if __name__ == "__main__":
    sys.exit(main())
