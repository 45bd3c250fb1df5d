"""What ./check and ./tracerun share: copies in the user's cache, and commands that run beside others."""
import contextlib
import filecmp
import os
import re
import shutil
import signal
import subprocess
import sys
import threading
import time
from pathlib import Path

TOP = Path(__file__).resolve().parent.parent
CACHE = Path(os.environ.get("XDG_CACHE_HOME") or Path.home() / ".cache") / "kozhumir"


def of_this_clone(name):
    """A place in the cache that no other clone uses."""
    return CACHE / name / str(TOP).strip("/").replace("/", "-")


def processors(memory):
    """How many jobs run at once that take so many bytes: one for each processor, as far as memory is there."""
    free = re.search(r"^MemAvailable: *(\d+) kB", Path("/proc/meminfo").read_text(encoding="utf-8"), re.M)
    return max(1, min(len(os.sched_getaffinity(0)), int(free[1]) * 1024 // memory if free else 1))


def clock(seconds):
    return f"{int(seconds) // 60} min {int(seconds) % 60:02} s"


def tell(text, end="\n"):
    """Tells it on standard error: on a terminal over what is drawn there."""
    line = f"\rtracerun: {text}\033[K" if sys.stderr.isatty() else f"tracerun: {text}"
    print(line, end=end, file=sys.stderr, flush=True)


def exit_at_signals():
    """Lets a signal end this process by SystemExit, so that what it began is ended and cleared, whatever comes then."""
    numbers = (signal.SIGINT, signal.SIGTERM, signal.SIGHUP)

    def leave(number, _):
        for it in numbers:
            signal.signal(it, signal.SIG_IGN)
        sys.exit(128 + number)

    for it in numbers:
        signal.signal(it, leave)


def sources(top, crates):
    """What rt reads of the sources of these crates, by its place."""
    folders = [it for crate in crates for it in top.glob(f"crates/{crate}/*") if it.name not in ("out", "must-fail")]
    files = [top / "HANDLES", *folders, *(file for it in folders for file in it.rglob("*"))]
    return {it.relative_to(top) for it in files if it.is_file()}


def lay_copy(crates, copy):
    """Brings a copy of the sources of these crates up to date; what rt kept there of proofs stays."""
    wanted = sources(TOP, crates)
    for place in sources(copy, crates) - wanted:
        (copy / place).unlink()
    for place in wanted:
        if not ((copy / place).is_file() and filecmp.cmp(TOP / place, copy / place, shallow=False)):
            (copy / place).parent.mkdir(parents=True, exist_ok=True)
            shutil.copy(TOP / place, copy / place)
    # (rt wants the folder of each crate that is listed)
    lines = (TOP / "crates.txt").read_text(encoding="utf-8").splitlines(keepends=True)
    listed = "".join(it for it in lines if re.split(r"[\s:#]", it)[0] in crates)
    (copy / "crates.txt").write_text(listed, encoding="utf-8")


class Command:
    """A command that runs in a group of processes of its own. Its status is 0 where it has ended and all is well."""

    begun = []

    def __init__(self, tells):
        """One whose lines are kept and told."""
        self.tells, self.lines, self.status, self.seconds, self.cpu = tells, [], None, 0, 0
        self.process = self.thread = None

    def begin(self, words, folder, niceness=None):
        """Begins it in a thread, where no signal comes between, so that none is lost that is begun."""
        self.thread = threading.Thread(target=self.run, args=(words, folder, niceness), daemon=True)
        self.begun.append(self)
        self.thread.start()

    def run(self, words, folder, niceness):
        def alone():
            # (and no session of its own, across which nice counts nothing)
            os.setpgid(0, 0)
            os.nice(niceness)

        start = time.monotonic()
        try:
            # (what it begins keeps the locks that are held here)
            self.process = subprocess.Popen(
                words, cwd=folder, close_fds=False, encoding="utf-8", errors="replace", stdin=subprocess.DEVNULL,
                stdout=subprocess.PIPE, stderr=subprocess.STDOUT, start_new_session=niceness is None,
                preexec_fn=None if niceness is None else alone)
        except OSError as error:
            self.lines, self.status = [f"FAILED: {error!r}\n"], 127
            return
        for line in self.process.stdout:
            self.lines.append(line)
            self.tells(line)
        with contextlib.suppress(ChildProcessError):  # (it was broken off)
            _, status, used = os.wait4(self.process.pid, 0)
            self.seconds, self.cpu = time.monotonic() - start, used.ru_utime + used.ru_stime
            self.status = self.process.returncode = status

    def is_at_work(self):
        return self.thread is not None and self.thread.is_alive()


def end_all():
    """Breaks off the commands that haven't ended."""
    for it in Command.begun:
        while it.is_at_work() and not it.process:
            time.sleep(0.01)
        if it.process and it.status is None:
            with contextlib.suppress(ProcessLookupError):
                os.killpg(it.process.pid, signal.SIGTERM)
    for it in Command.begun:
        if it.process and it.status is None:
            it.process.wait()
