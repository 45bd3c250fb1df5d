#!/usr/bin/env python3
"""Proves crates, and builds the program that is the last of them; `./tracerun --prove` runs it.

usage: prove.py CRATE..
The crates are named lowest first. Each is proved by `rt lib` once those below it are, side by side with others, and the
program is proved and built by `rt run`. Since a run of rt has the crates below to itself, each crate is proved in a room
of its own, in kozhumir/proving of the user's cache: the sources, what rt kept of the crates below when it proved them,
and the crate's folder out/ of the clone, with which rt begins (one make of rt can use it in any place). That goes back
into the clone at the end, also where not all is proved. Standard error tells how far it is. What is left is guessed by
the times of the last run on this machine that proved a crate from nothing, kept in kozhumir/prove_times, else by
prove_times.txt beside this file: a crate, its functions, and the seconds on the clock. The status is 0, or 4 where not
all is proved, after what rt said of that.
"""
import contextlib
import fcntl
import os
import re
import shutil
import sys
import threading
import time

from running import CACHE, TOP, Command, clock, end_all, exit_at_signals, lay_copy, of_this_clone, processors, tell

LISTED, LAST = TOP / "tools/prove_times.txt", CACHE / "prove_times"
ROOMS = of_this_clone("proving")
SOURCES = ROOMS / ".sources"
SO_FAR = re.compile(r"^so far: (\d+) of (\d+) functions checked")
# What rt says where all goes well.
GOOD = re.compile(
    r".*: (proved|ok)\b|(so far|by-macro|empty contracts): |(logic|statements|library|crate|axioms|linked) "
    r"|logic=proved |only=|rt: (chose|note|waiting for another|the quick pass|running|\w+: begins with)\b")


class Proof(Command):
    """The proof of a crate: the proofs of all below it, and how far it is."""

    def __init__(self, name, below, functions=0, listed=0):
        super().__init__(self.reads)
        self.name, self.below, self.functions, self.listed = name, below, functions, listed
        self.checked, self.is_from_nothing = 0, False
        self.room = ROOMS / name
        # Where rt keeps what it proved, in the clone and in the room.
        self.out, self.kept = (it / "crates" / name / "out" for it in (TOP, self.room))

    def reads(self, line):
        # (rt takes what was checked in other copies on this machine too)
        self.is_from_nothing &= ": begins with what a check kept in " not in line
        for checked, functions in SO_FAR.findall(line):
            self.checked = max(self.checked, int(checked))
            self.functions = max(int(functions), 0 if self.is_from_nothing else self.functions)

    def is_proved(self):
        return self.status == 0

    def done(self):
        """The functions that are checked."""
        return self.functions if self.is_proved() else min(self.checked, self.functions)

    def jobs(self, functions, most):
        """A job for each so many functions, as each loads all that the crate stands on; at most so many."""
        return max(min(self.functions // functions, most), 1) if self.functions else most

    def left(self):
        """The seconds that are left of it by its listed time."""
        return self.listed * (1 - (self.done() / self.functions if self.functions else self.is_proved()))


def proofs_of(crates):
    """The proofs of these crates, none of which is begun."""
    listed = dict(re.findall(r"^(\w+)[^:#\n]*:([^#\n]*)", (TOP / "crates.txt").read_text(encoding="utf-8"), re.M))
    times, proofs = {**times_in(LISTED), **times_in(LAST)}, {}
    for crate in crates:
        needs = [proofs[it] for it in listed[crate].split() if it in crates]
        proofs[crate] = Proof(crate, {*needs}.union(*(it.below for it in needs)), *times.get(crate, ()))
    return [*proofs.values()]


def ways_through(proofs):
    """Of each crate the seconds of the longest way from it to the program, with its own."""
    ways = {}
    for proof in reversed(proofs):
        ways[proof] = proof.left() + max((ways[it] for it in proofs if proof in it.below), default=0)
    return ways


def times_in(path):
    """Each crate's functions and seconds, as far as the file is there."""
    rows = re.findall(r"^(\w+) (\d+) (\d+)$", path.read_text(encoding="utf-8") if path.exists() else "", re.M)
    return {name: (int(functions), int(seconds)) for name, functions, seconds in rows}


def keep_times(proofs):
    """Keeps the times of the crates that were proved from nothing, for the next run's guess."""
    new = {it.name: (it.functions, round(it.seconds)) for it in proofs if it.is_proved() and it.is_from_nothing}
    rows = (f"{name} {functions} {took}\n" for name, (functions, took) in {**times_in(LAST), **new}.items())
    with contextlib.suppress(OSError):  # (else the next run guesses by the listed times)
        LAST.write_text("".join(rows), encoding="utf-8")


class Progress:
    """How far all is: on a terminal a line that is drawn anew, elsewhere a line for each crate and each minute."""

    def __init__(self, proofs):
        self.proofs, self.start, self.minute, self.is_drawn = proofs, time.monotonic(), 0, sys.stderr.isatty()

    def took(self):
        return clock(time.monotonic() - self.start)

    def so_far(self):
        """With the longest way through what is left, at the pace until now, where all times are known."""
        done, whole = sum(it.done() for it in self.proofs), sum(it.functions for it in self.proofs)
        ended = [it for it in self.proofs if it.is_proved() and it.listed and it.is_from_nothing]
        pace = sum(it.seconds for it in ended) / sum(it.listed for it in ended) if ended else 1
        left = max(ways_through(self.proofs).values()) * pace if all(it.listed for it in self.proofs) else 0
        guess = f", about {max(round(left / 60), 1)} min left" if left else ""
        return f"{done} of {whole} functions, {self.took()}{guess}"

    def shows(self, proved=None):
        """Shows how far it is: on a terminal each time, elsewhere where a crate is proved or a minute is over."""
        at_work = f"{' '.join(it.name for it in self.proofs if it.is_at_work())} ({self.so_far()})"
        minute = int(time.monotonic() - self.start) // 60
        if self.is_drawn:
            tell(at_work[: shutil.get_terminal_size().columns - 12], end="")
        elif proved:
            took = f"it took {clock(proved.seconds)}, {clock(proved.cpu)} of processors"
            tell(f"  {proved.name} is proved ({self.so_far()}; {took})")
        elif minute > self.minute:
            tell(f"  at work on {at_work}")
        self.minute = minute


def begin_those_that_can(proofs, jobs):
    """Begins crates below which all is proved, those with the longest ways first, and gives them.

    One with the longest way of all gets up to two jobs for each processor, since some end long before others, and goes
    before the other crates, which get up to one, for what it leaves. No proof gets more jobs later. At once are three
    crates for each four processors: so those with short ways run beside the last ones, which leave the most.
    """
    ways = ways_through(proofs)
    ready = [it for it in proofs if not it.thread and all(below.is_proved() for below in it.below)]
    room = max(jobs * 3 // 4, min(jobs, 2)) - sum(it.is_at_work() for it in proofs)
    begun = sorted(ready, key=ways.get, reverse=True)[: max(room, 0)]
    for proof in begun:
        lay_room(proof)
        is_longest = all(ways[proof] >= ways[it] for it in proofs if it.is_at_work())
        words = "rt run --jobs {} -- replay" if proof is proofs[-1] else "rt lib --jobs {}"
        proof.is_from_nothing = not proof.kept.exists()
        # (to load all takes as long as some 25 functions; where processors would stand idle, it may be done for fewer)
        its_jobs = proof.jobs(12, 2 * jobs) if is_longest else proof.jobs(25, jobs)
        proof.begin(words.format(its_jobs).split(), proof.kept.parent, 0 if is_longest else 10)
    return begun


def lay_room(proof):
    """Lays a crate's room: by hard links, which are made and cleared faster than copies (rt refuses symbolic ones)."""
    shutil.copytree(SOURCES, proof.room, copy_function=os.link)
    if proof.out.exists():
        move(proof.out, proof.kept)
    for it in proof.below:
        # (all that the crates above read of it, and a tenth of the files)
        rlib = proof.room / f"crates/{it.name}/out/rlib"
        shutil.copytree(it.kept / "rlib", rlib, symlinks=True, copy_function=os.link)


def clear_room(proof):
    """Leaves of the room of a crate that is proved what rt kept of it: at the end that would take its time."""
    for crate in (it for it in proof.room.glob("crates/*") if it.name != proof.name):
        shutil.rmtree(crate, ignore_errors=True)


def move(kept, place):
    """Moves what rt kept, so that no part of it stands there where that is broken off."""
    part = place.with_name(".out")
    shutil.rmtree(part, ignore_errors=True)
    shutil.move(kept, part)
    part.rename(place)


def put_back(proofs):
    """Puts what rt kept in the rooms into the clone, where that has none, and clears the rooms."""
    for it in proofs:
        if it.kept.exists() and not it.out.exists():
            move(it.kept, it.out)
    shutil.rmtree(ROOMS, ignore_errors=True)


def lock_rooms():
    """Lets one run at a time work for a clone; what a run that was killed began holds the lock until it ends."""
    ROOMS.parent.mkdir(parents=True, exist_ok=True)
    lock = open(f"{ROOMS}.lock", "w", encoding="utf-8")
    os.set_inheritable(lock.fileno(), True)
    try:
        fcntl.flock(lock, fcntl.LOCK_EX | fcntl.LOCK_NB)
    except BlockingIOError:
        tell("waits for another --prove of this clone")
        fcntl.flock(lock, fcntl.LOCK_EX)
    return lock


def prove(proofs, progress):
    """The proof that failed, if one did."""
    # (a copy, so that what is edited from now on counts for no crate)
    lay_copy([it.name for it in proofs], SOURCES)
    jobs, at_work = processors(3_000_000_000), []  # (the bytes are what a job may take)
    while not all(it.is_proved() for it in proofs):
        at_work += begin_those_that_can(proofs, jobs)
        progress.shows()
        time.sleep(0.2)
        for proof in [it for it in at_work if not it.is_at_work()]:
            if not proof.is_proved():
                return proof
            at_work.remove(proof)
            progress.shows(proof)
            threading.Thread(target=clear_room, args=(proof,), daemon=True).start()
    return None


def prove_and_keep(proofs, progress):
    """What prove gives. What is proved stays in the clone, also where this is broken off."""
    program, began = proofs[-1].out / proofs[-1].name, time.time()
    try:
        return prove(proofs, progress)
    except SystemExit:
        tell(f"broken off after {progress.took()}; what is proved stays so")
        raise
    finally:
        end_all()
        keep_times(proofs)
        put_back(proofs)
        # What was edited since it began is newer than the program.
        if program.exists() and (proofs[-1].is_proved() or program.stat().st_mtime > began):
            os.utime(program, (began, began))


def main():
    exit_at_signals()
    try:
        proofs = proofs_of(sys.argv[1:])
        progress = Progress(proofs)
        tell(f"proving {len(proofs)} crates ({progress.so_far()})")
        _held = lock_rooms()
        # What a run that was killed left, without the program, which may be older than a source.
        (proofs[-1].kept / proofs[-1].name).unlink(missing_ok=True)
        put_back(proofs)
        failed = prove_and_keep(proofs, progress)
    except (OSError, KeyError) as error:
        tell(f"the program was not built: {error!r}")
        sys.exit(4)
    if failed:
        over = "\r\033[K" if progress.is_drawn else ""
        print(over, *(line for line in failed.lines if not GOOD.match(line)), sep="", end="", file=sys.stderr)
        tell(f"the program was not built: {failed.name} is not proved")
        sys.exit(4)
    tell(f"the program is proved and built ({progress.took()}, {clock(sum(it.cpu for it in proofs))} of processors)")


if __name__ == "__main__":
    main()
