"""Runs a program once and measures it: CPU, time on the clock, peak memory, and what it wrote."""
import ctypes
import os
import subprocess
import sys
import threading
import time
import zlib
from collections import namedtuple

BLOCK = 1024 * 1024
PR_SET_CHILD_SUBREAPER = 36

# The shell starts the program, tells its number and ends; then the program is a child of this process. One that this
# process started itself would begin with Python's memory as its peak. It begins when it is told to, since a shell takes
# in a child that ends before it does.
START = 'exec 3<&0; { read -r go <&3; exec "$@" 3<&- < "$0"; } & echo $! >&2'

# What one run took: `user`, `cpu` (user and system) and `clock` in seconds, `peak` in bytes, page `faults`. What it
# wrote: `size` in bytes, a check `sum`, and the `last` bytes.
Run = namedtuple("Run", "user cpu clock peak faults status size sum last error")


def become_parent_of_orphans():
    """Processes whose parent ends become children of this one."""
    libc = ctypes.CDLL(None, use_errno=True)
    if libc.prctl(PR_SET_CHILD_SUBREAPER, 1, 0, 0, 0) != 0:
        sys.exit(f"measure.py: prctl: {os.strerror(ctypes.get_errno())}; this needs Linux")


class Reading(threading.Thread):
    """Reads a pipe to its end, and keeps only how much it was, a check sum, and how it ended."""

    def __init__(self, pipe):
        super().__init__()
        self.pipe, self.size, self.sum, self.last = pipe, 0, 0, b""
        self.start()

    def run(self):
        while block := self.pipe.read(BLOCK):
            self.size += len(block)
            self.sum = zlib.crc32(block, self.sum)
            self.last = (self.last + block[-64:])[-64:]


def run_once(words, path=os.devnull):
    """One run of a command, with the file as its standard input. What it writes is thrown away."""
    pipes = {"stdin": subprocess.PIPE, "stdout": subprocess.PIPE, "stderr": subprocess.PIPE, "bufsize": 0}
    with subprocess.Popen(["sh", "-c", START, path, *words], **pipes) as shell:
        reading = Reading(shell.stdout)
        told = shell.stderr.read(16)
        number, _, error = told.partition(b"\n")
        shell.wait()
        begun = time.monotonic()
        shell.stdin.write(b"go\n")
        _, status, used = os.wait4(int(number), 0)
        clock = time.monotonic() - begun
        reading.join()
        error += shell.stderr.read(1024)
    return Run(
        user=used.ru_utime,
        cpu=used.ru_utime + used.ru_stime,
        clock=clock,
        peak=used.ru_maxrss * 1024,
        faults=used.ru_minflt,
        status=os.WEXITSTATUS(status) if os.WIFEXITED(status) else -os.WTERMSIG(status),
        size=reading.size,
        sum=reading.sum,
        last=reading.last,
        error=error.decode(errors="replace").strip(),
    )
