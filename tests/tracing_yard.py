"""What tests/tracing.py builds its programs in, and how it runs and counts them."""

import os
import resource
import shutil
import subprocess
from pathlib import Path

TOP = Path(__file__).resolve().parent.parent
OURS = TOP / "rust/tracing-subscriber"
REGISTRY = Path("/usr/share/cargo/registry")
# Debian's packages, and the folder that each brings.
PACKAGES = {
    "librust-tracing-dev": "tracing-0.1.37",
    "librust-tracing-subscriber-dev": "tracing-subscriber-0.3.16",
    "librust-tracing-futures-dev": "tracing-futures-0.2.5",
    "librust-tokio-dev": "tokio-1.*",
}
CONFIG = f"""[source.crates-io]
replace-with = "debian"

[source.debian]
directory = "{REGISTRY}"

[net]
offline = true
"""
# How many times as long as its limit says a program may take: the machine may be slow, and others at work on it.
PATIENCE = 4
# The memory of the program that is to run out of it.
LITTLE = {"memory": 256 << 20}
VALGRIND = ["valgrind", "--quiet", "--error-exitcode=99", "--fair-sched=yes"]
# What cargo builds takes a fraction of the disk so: nothing for a debugger, and nothing that makes the next build faster.
LEAN = {"CARGO_INCREMENTAL": "0", "CARGO_PROFILE_DEV_DEBUG": "0"}


class Count:
    """How many checks passed and failed."""

    def __init__(self):
        self.passed = 0
        self.failed = 0

    def check(self, is_right, what):
        if is_right:
            self.passed += 1
        else:
            self.failed += 1
            print(f"failed: {what}")


def missing():
    """What isn't there of what is needed; none where all is."""
    for command in ("cargo", "patch"):
        if shutil.which(command) is None:
            return f"the command {command} is not on the PATH"
    lacks = [package for package, folder in PACKAGES.items() if not list(REGISTRY.glob(folder))]
    return f"Debian's packages {', '.join(lacks)} aren't installed" if lacks else None


class Yard:
    """A folder in which crates are built: with the original, and with the copy that stands on the proved store."""

    def __init__(self, folder, library, jobs, is_kept=True):
        self.folder = folder
        self.library = library
        self.jobs = jobs
        self.is_kept = is_kept
        (folder / ".cargo").mkdir(parents=True, exist_ok=True)
        (folder / ".cargo/config.toml").write_text(CONFIG)

    def lay(self, folder):
        shutil.rmtree(folder, ignore_errors=True)
        folder.parent.mkdir(parents=True, exist_ok=True)
        source = REGISTRY / "tracing-subscriber-0.3.16"
        subprocess.run([OURS / "lay", folder, "--from", source, "--library", self.library], check=True)

    def clear(self, *names):
        """Removes folders that no later part needs, where the yard isn't kept."""
        for name in () if self.is_kept else names:
            shutil.rmtree(self.folder / name, ignore_errors=True)

    def cargo(self, command, folder, *words):
        """Runs cargo, with one folder of what is built for all crates."""
        line = ["cargo", command, "--offline", "-j", str(self.jobs), *words]
        # One test at a time: tests with dispatchers of their own in one process may switch off each other's call sites,
        # since tracing-core asks the thread's default alone for their interest while it knows of one dispatcher only.
        environment = {**os.environ, **LEAN, "CARGO_TARGET_DIR": str(self.folder / "target"), "RUST_BACKTRACE": "0",
                       "RUST_TEST_THREADS": "1"}
        return subprocess.run(line, cwd=folder, env=environment, stdin=subprocess.DEVNULL, text=True,
                              stdout=subprocess.PIPE, stderr=subprocess.STDOUT)


def run(program, words=(), seconds=60, before=()):
    """What a program says, and its status; none where it took too long."""
    environment = {**os.environ, "RUST_BACKTRACE": "0"}
    memory = LITTLE.get(program.name)

    def limit():
        if memory is not None:
            resource.setrlimit(resource.RLIMIT_AS, (memory, memory))

    try:
        done = subprocess.run([*before, program, *words], capture_output=True, text=True,
                              timeout=PATIENCE * seconds, env=environment, preexec_fn=limit)
    except subprocess.TimeoutExpired:
        return "it took too long", None
    return done.stdout + ("" if done.returncode == 0 else done.stderr[-2000:]), done.returncode
