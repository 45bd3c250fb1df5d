#!/usr/bin/env python3
"""Times a whole command, and keeps that in bench/figures/NAME.json, from where tests/figures.py takes it to the pages.

usage: times.py [--beside WHAT] NAME COMMAND..

Kept are its minutes and seconds on the clock, and the minutes of CPU of all that it waited for, and WHAT else was at
work. Of one that fails nothing is kept. The status is the command's.
"""
import resource
import subprocess
import sys
import time
from pathlib import Path

TOP = Path(__file__).resolve().parent.parent
sys.path.insert(0, str(TOP / "tests"))

import figures  # noqa: E402


def main():
    words = sys.argv[1:]
    beside = f", beside {words[1]}" if words[:1] == ["--beside"] and len(words) > 1 else ""
    name, *command = (words[2:] if beside else words) or [""]
    if not command:
        sys.exit(__doc__)
    begun = time.monotonic()
    status = subprocess.run(command).returncode
    seconds, used = time.monotonic() - begun, resource.getrusage(resource.RUSAGE_CHILDREN)
    cpu = (used.ru_utime + used.ru_stime) / 60
    print(f"times.py: {seconds / 60:.1f} minutes on the clock, {cpu:.1f} of CPU, status {status}", file=sys.stderr)
    if status == 0:
        figures.record(name, values={"minutes": seconds / 60, "seconds": seconds, "cpu": cpu}, how=beside)
    return status


if __name__ == "__main__":
    sys.exit(main())
