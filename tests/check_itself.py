#!/usr/bin/env python3
"""Runs `./check` in a small clone, with a command rt that proves nothing, and parts that only say that they passed; and
bench/gate.py, which measures it.

usage: check_itself.py
Each row compares how a run ends, and what it says. The last line is 'N passed, M failed'.
"""
import io
import os
import re
import shutil
import signal
import subprocess
import sys
import tempfile
from contextlib import redirect_stderr, redirect_stdout
from types import SimpleNamespace
from unittest.mock import patch

from figures import names_in, read_figures
from parts import LIBRARIES, PARTS, QUICK, TOP, tell_lack

sys.path.insert(0, str(TOP / "bench"))
import gate  # noqa: E402

WAITS = {"tracerun": 2, "refused_memory": 29, "call_loops": 42, "span_benchmark": 36}
CRATES = "low: # the lowest\n" + "".join([*(f"{name} may_wait={number}: low\n" for name, number in WAITS.items()),
                                         *(f"{name} staticlib: low\n" for name in LIBRARIES)])
FAKED = [it for it in PARTS if it.needs != "gate"]
LISTED = {"low": 0, **WAITS, **dict.fromkeys(LIBRARIES, 0)}
# What it prints as rt ci is in a file; the programs that it makes are in the variable MAKES.
FAKE_RT = """#!/bin/sh
echo "$* in ${PWD##*/}" >> "$FAKE/calls"
case $1 in
    ci) sleep 0.02 # (files have coarse times)
        : > "$FAKE/begun"
        sleep 0.02
        cat "$FAKE/ci"
        for name in $MAKES; do mkdir -p crates/$name/out && touch crates/$name/out/$name; done
        [ -z "$HANGS" ] || sleep 600
        exit $STATUS ;;
    help) echo "$HELPS" ;;
    lib) mkdir -p out; touch "out/lib${PWD##*/}.a"; [ -n "$MAKES" ] ;;
esac
"""
PASSES = "print('3 passed, 1 failed')\nprint('4 passed, 0 failed')\n"
ALL = " ".join(WAITS)


def ci(waits=(), kept=(), against=(), more="", last="5 passed, 0 failed"):
    """What rt ci prints; of a crate that isn't proved what stands against it."""
    said = []
    for name, number in {**LISTED, **dict(waits)}.items():
        proof = f"logic=proved functions=1{f' may-wait={number}' if number else ''} sum=1\nrt: {name} proved\n"
        proof = dict(against).get(name, proof)
        said.append(f"rt: {name} is kept: an earlier run proved it\n" if name in kept else f"== {name}\n{proof}")
        said.append(f"== {name}: its tests\nlogic=proved may-wait=77\nrt: {name}: its tests are proved\n")
    return "".join(said) + f"{more}{last}\n"


class Clone:
    def __init__(self, folder):
        self.at, self.fake, self.room = f"{folder}/clone", f"{folder}/fake", f"{folder}/room"
        folders = (f"{self.at}/{it}" for it in ("tests", "tools", "rust"))
        for name in (self.at, self.fake, self.room, *folders, f"{folder}/bin"):
            os.mkdir(name)
        for name in ("check", "tests/parts.py", "tests/parts.txt", "tests/gate_says.py", "tools/running.py"):
            shutil.copy(f"{TOP}/{name}", f"{self.at}/{name}")
        for script in re.findall(r"tests/\w+\.py", "".join(it.command for it in FAKED + QUICK)):
            self.write(f"{self.at}/{script}", PASSES)
        self.write(f"{self.at}/crates.txt", CRATES)
        for name in LISTED:
            os.makedirs(f"{self.at}/crates/{name}/must-fail")
            self.write(f"{self.at}/crates/{name}/must-fail/low.edit", "")
            self.write(f"{self.at}/crates/{name}/README.md", "")
        self.write(f"{self.at}/rust/test", "#!/bin/sh\necho 4 passed, 0 failed\n")
        for name, text in (("rt", FAKE_RT), ("valgrind", ""), ("cargo", "")):
            self.write(f"{folder}/bin/{name}", text or "#!/bin/sh\n")
        self.path = f"{folder}/bin:{os.environ['PATH']}"

    def write(self, path, text):
        with open(path, "w", encoding="utf-8") as file:
            file.write(text)
        os.chmod(path, 0o755)

    def places(self, said=None, makes=ALL, status=0, hangs="", path=None, helps="rt ci --anew"):
        """The environment in which the command rt says and does so."""
        self.write(f"{self.fake}/ci", said or ci())
        self.write(f"{self.fake}/calls", "")
        return {**os.environ, "PATH": path or self.path, "FAKE": self.fake, "TMPDIR": self.room, "MAKES": makes,
                "XDG_CACHE_HOME": f"{self.fake}/cache", "STATUS": str(status), "HANGS": hangs, "HELPS": helps}

    def start(self, *words, **how):
        for name in LISTED:
            shutil.rmtree(f"{self.at}/crates/{name}/out", ignore_errors=True)
        return subprocess.Popen([f"{self.at}/check", *words], env=self.places(**how), stdout=subprocess.PIPE,
                                stderr=subprocess.STDOUT, encoding="utf-8")

    def run(self, *words, **how):
        """The status, the last line and all that was said."""
        run = self.start(*words, **how)
        said = run.communicate(timeout=120)[0]
        return run.returncode, said.splitlines()[-1], said

    def calls(self):
        """What rt was called for; some of it at the same time."""
        with open(f"{self.fake}/calls", encoding="utf-8") as file:
            return sorted(file.read().splitlines())


class Rows:
    def __init__(self):
        self.passed = self.failed = 0

    def wants(self, name, found, *wanted):
        """What a run has to end with, and texts that it has to say."""
        status, last, *texts = wanted
        is_so = found[:2] == (status, last) and all(it in found[2] for it in texts)
        self.passed, self.failed = self.passed + is_so, self.failed + (not is_so)
        if not is_so:
            print(f"FAILED {name}: wanted {wanted!r}, found {found[:2]!r}, of\n{found[2]}")


def wholes(rows, clone):
    # (5 by rt ci, the crates compared, the libraries, 4 by each part)
    good = 5 + len(LISTED) + len(LIBRARIES) + 4 * len(FAKED)
    found = clone.run()
    rows.wants("all is well", found, 0, f"{good} passed, 0 failed", "the C interface: 4 passed, 0 failed")
    rows.wants("the calls of rt", (0, "", str(clone.calls())), 0, "", str(["ci in clone", *(f"lib in {it}" for it in LIBRARIES)]))
    copies = f"{clone.fake}/cache/kozhumir/libraries"
    copy = f"{copies}/{os.listdir(copies)[0]}/crates/low"
    clone.write(f"{clone.at}/crates/low/README.md", "new")
    for name in ("old", "out"):
        os.makedirs(f"{copy}/{name}")
        clone.write(f"{copy}/{name}/old.rt", "")
    rows.wants("all is well with a copy that is there", clone.run(), 0, f"{good} passed, 0 failed")
    with open(f"{copy}/README.md", encoding="utf-8") as file:
        found = file.read(), os.path.exists(f"{copy}/old/old.rt"), os.path.exists(f"{copy}/out/old.rt")
    rows.wants("the copy is brought up to date", (0, str(found), ""), 0, "('new', False, True)")
    program, begun = f"{clone.at}/crates/tracerun/out/tracerun", f"{clone.fake}/begun"
    is_older = os.stat(program).st_mtime <= os.stat(begun).st_mtime
    rows.wants("what is made is as old as its sources", (0, str(is_older), ""), 0, "True")
    found = clone.run(said=ci({"low": 1, "tracerun": 3}))
    told = "low: crates.txt says that 0 may wait, the checker counted 1"
    other = "tracerun: crates.txt says that 2 may wait, the checker counted 3"
    rows.wants("others may wait", found, 1, f"{good - 2} passed, 2 failed", told, other)
    errors = [f"src/lib.rt:{it}: error: no proof of goal-{it}" for it in range(1, 31)]
    said = ["quick pass", "src/lib.rt is not in the layout", *errors, "rt: low: NOT PROVED"]
    found = clone.run(said=ci(against={"low": "".join(f"{it}\n" for it in said)}, last="4 passed, 1 failed"), status=1)
    counted = "FAILED low: crates.txt says that 0 may wait, the checker counted none, as it is not proved"
    told = "".join(f"\n    {it}" for it in [*said[1:16], *said[-5:]])
    rows.wants("a crate is not proved", found, 1, f"{good - 2} passed, 2 failed", counted + told)
    found = clone.run(said=ci(kept=["low", "tracerun"]))
    told = "not compared in this run, since rt ci kept their proofs: low tracerun"
    rows.wants("kept proofs", found, 0, f"{good - 2} passed, 0 failed", told)
    found = clone.run(said=ci(more="rt: must-fail low/x.edit: BAD EDIT: its old text is gone\n"))
    rows.wants("an edit that can't be made", found, 1, f"{good} passed, 1 failed")
    found = clone.run(said=ci(last="5 passed, 2 failed"), status=1)
    rows.wants("rt ci counts failures", found, 1, f"{good} passed, 2 failed")
    found = clone.run(said=ci(last="rt: stopped"), status=2)
    rows.wants("rt ci counts nothing", found, 1, f"{good - 5} passed, 1 failed")
    clone.write(f"{clone.at}/tests/storms.py", "import sys\nprint('4 passed, 0 failed')\nsys.exit(1)\n")
    rows.wants("a part with a wrong status", clone.run(), 1, f"{good} passed, 1 failed")
    clone.write(f"{clone.at}/tests/storms.py", "")
    rows.wants("a part that counts nothing", clone.run(), 1, f"{good - 4} passed, 1 failed")
    clone.write(f"{clone.at}/tests/storms.py", PASSES)
    os.rename(f"{clone.at}/crates/span_ffi", f"{clone.fake}/span_ffi")
    shutil.rmtree(copies)
    on_it = sum("span_ffi" in it.needs.split() for it in PARTS)
    wanted = f"{good - 1 - 4 * on_it} passed, {1 + on_it} failed"
    rows.wants("what can't begin", clone.run(), 1, wanted, "the static library span_ffi: 0 passed, 1 failed")
    os.rename(f"{clone.fake}/span_ffi", f"{clone.at}/crates/span_ffi")


def parts_left_out(rows, clone):
    alone = [it for it in PARTS if not it.needs]
    on_valgrind = sum("valgrind" in it.needs for it in PARTS)
    found = clone.run(makes="")
    wanted = f"{5 + len(LISTED) + 4 * len(alone)} passed, {len(LIBRARIES) + len(FAKED) - len(alone)} failed"
    told = "not run, as span_ffi was not made", "not run, as tracerun was not made"
    rows.wants("nothing is made", found, 1, wanted, *told)
    os.remove(clone.path.split(":")[0] + "/valgrind")
    commands = f"{os.path.dirname(clone.fake)}/commands"
    os.mkdir(commands)
    for name in ("bash", "sh", "python3", "readlink", "dirname", "cat", "mkdir", "touch", "env", "sleep", "rm"):
        os.symlink(shutil.which(name), f"{commands}/{name}")
    found = clone.run(path=f"{clone.path.split(':')[0]}:{commands}")
    passed = 5 + len(LISTED) + len(LIBRARIES) + 4 * (len(FAKED) - on_valgrind)
    rows.wants("a tool isn't there", found, 0, f"{passed} passed, 0 failed", "not run: valgrind is not on the PATH")
    found = clone.run(path=commands)
    rows.wants("no rt", found, 2, "check: the command rt is not on the PATH")


def others(rows, clone):
    found = clone.run("--quick")
    rows.wants("what needs no proof", found, 0, f"{4 * len(QUICK)} passed, 0 failed", "nothing was proved")
    rows.wants("what needs no proof: the calls of rt", (0, "", str(clone.calls())), 0, "", "[]")
    clone.run()
    copies = f"{clone.fake}/cache/kozhumir/libraries"
    kept = f"{copies}/{os.listdir(copies)[0]}/crates/low/out"
    for helps, wanted in (("rt ci --anew", "ci --anew in clone"), ("rt ci", "ci in clone")):
        os.mkdir(kept)
        found = clone.run("--anew", helps=helps)
        rows.wants(f"no earlier proof in the copy, with {helps}", (0, str(os.path.isdir(kept)), ""), 0, "False")
        rows.wants(f"no earlier proof, with {helps}", (found[0], "", clone.calls()[0]), 0, "", wanted)
    rows.wants("no such option", clone.run("--old"), 2, "check: there is no crate --old")
    rows.wants("named crates", clone.run("low", "tracerun"), 0, "2 passed, 0 failed")
    wanted = "['check in low', 'check in tracerun', 'test in low', 'test in tracerun']"
    rows.wants("named crates: the calls", (0, "", str(clone.calls())), 0, "", wanted)
    rows.wants("no such crate", clone.run("high"), 2, "check: there is no crate high")
    run = clone.start(hangs="1")
    while "passed" not in run.stdout.readline():
        pass
    run.send_signal(signal.SIGTERM)
    run.communicate(timeout=60)
    found = run.returncode, str(os.listdir(clone.room)), ""
    rows.wants("broken off: nothing is left", found, 143, "[]")


def small_disks(rows, clone):
    # (both are on one disk)
    took = {clone.at: 1 << 30, clone.room: 2 << 30}
    told = f"check: {clone.at} has 3071 MiB left, and a run from nothing takes 3072 or more: make room"
    for free, wanted in ((3 << 30, ""), ((3 << 30) - 1, told)):
        said = io.StringIO()
        there = patch("shutil.disk_usage", return_value=SimpleNamespace(free=free))
        with there, patch("parts.TOOK", took), redirect_stdout(said):
            tell_lack()
        lines = said.getvalue().splitlines()
        rows.wants(f"{free} bytes of disk", (len(lines), "", said.getvalue()), bool(wanted), "", wanted)


def measured(rows, clone):
    for words in ("init -q", "add .", "-c user.name=a -c user.email=a@example.org commit -q -m a"):
        subprocess.run(["git", "-C", clone.at, *words.split()], check=True)
    fails = {"said": ci(last="5 passed, 2 failed"), "status": 1}
    for name, how, wanted in (("all proved", {}, 0), ("a failure", fails, 1), ("an earlier proof", {"said": ci(kept=["low"])}, 0)):
        found, said = {}, io.StringIO()
        with patch.dict(os.environ, clone.places(**how)), redirect_stdout(said), redirect_stderr(said):
            status = gate.measured(clone.at, lambda name, values, _: found.update({name: values}))
        rows.wants(f"measured: {name}, the status", (status, "", said.getvalue()), wanted, "", "low")
        called = "'ci --anew in clone', 'help in clone', 'lib in"
        rows.wants(f"measured: {name}, its call", (0, "", str(clone.calls())), 0, "", called)
        if how:
            rows.wants(f"measured: {name}, nothing is kept", (0, str(found), ""), 0, "{}")
        else:
            rows.wants("measured: the files", (0, " ".join(found), ""), 0, "gate whole-gate")
            says = [(it, text) for it in found for texts in read_figures()[it]["says"].values() for text in texts]
            is_all = all(found[it].keys() >= {*names_in(text)} for it, text in says)
            rows.wants("measured: what pages tell", (0, str(is_all), ""), 0, "True")
            rows.wants("measured: edits", (found["gate"]["edits"], "", ""), len(LISTED), "")
    rows.wants("measured: nothing is left", (0, str(os.listdir(clone.room)), ""), 0, "[]")


def main():
    rows = Rows()
    for part in (wholes, parts_left_out, others, small_disks, measured):
        with tempfile.TemporaryDirectory() as folder:
            part(rows, Clone(folder))
    print(f"{rows.passed} passed, {rows.failed} failed")
    return 1 if rows.failed else 0


if __name__ == "__main__":
    sys.exit(main())
