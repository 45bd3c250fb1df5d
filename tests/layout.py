#!/usr/bin/env python3
"""Compares each source of the crates with what `rt fmt` makes of it, in a copy.

usage: layout.py
`rt ci` proves no crate that is not in this layout, which is seen here in seconds. `rt fmt` in the crate's folder mends
it. The last line is 'N passed, M failed'.
"""
import filecmp
import subprocess
import sys
import tempfile
from pathlib import Path

TOP = Path(__file__).resolve().parent.parent
sys.path.insert(0, str(TOP / "tools"))
from running import lay_copy, sources  # noqa: E402


def main():
    crates = sorted(it.parent.name for it in TOP.glob("crates/*/src"))
    passed, failed = 0, 0
    with tempfile.TemporaryDirectory() as room:
        copy = Path(room)
        lay_copy(crates, copy)
        for crate in crates:
            ended = subprocess.run(["rt", "fmt"], cwd=copy / "crates" / crate, capture_output=True, text=True)
            files = {it for it in sources(copy, [crate]) if it.parts[0] == "crates"}
            others = sorted(it for it in files if not filecmp.cmp(TOP / it, copy / it, shallow=False))
            for place in others:
                print(f"FAILED {place} is not in the layout: run rt fmt in crates/{crate}")
            if ended.returncode != 0:
                print(f"FAILED {crate}: rt fmt ended with {ended.returncode}\n{ended.stdout}{ended.stderr}", end="")
            bad = len(others) + int(ended.returncode != 0)
            passed, failed = passed + len(files) - len(others), failed + bad
    print(f"{passed} passed, {failed} failed")
    return 1 if failed else 0


if __name__ == "__main__":
    sys.exit(main())
