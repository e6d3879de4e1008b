"""Runs `rt ci`, by .ci/prove.py, which keeps what that of some kits does not: tells how far it is, line by line, and measures
what its parts take of a processor."""

import collections
import os
import re
import subprocess
import sys
import threading
import time

import crates

# The variable that marks the processes of a run.
MARK = "HIRVODAS_GATE"

# How long to wait between two looks at the processes, in seconds.
BETWEEN_LOOKS = 0.5

# The lines that end what is said of a proof.
PROVED = re.compile(r"^rt: (\w+)(: its tests)?(?: are)? (proved|NOT PROVED)")

# What is said of a crate that an earlier run proved: by the kit, in place of such a line, and by .ci/prove.py, before it.
KEPT = re.compile(r"^rt: (\w+) is kept")
KEPT_HERE = "rt: kept: an earlier run proved it"


class Clock:
    """Looks at the processes of a run again and again, and adds up the processor seconds of each crate's proof,
    tests and builds. What ends between two looks is lost, so half a second at the most of each."""

    def __init__(self):
        self.mark, self.seen, self.is_over = f"{os.getpid()}.{time.time_ns()}", {}, threading.Event()
        self.thread = threading.Thread(target=self.watch, daemon=True)

    def __enter__(self):
        self.thread.start()
        return self

    def __exit__(self, *_):
        self.is_over.set()
        self.thread.join()

    def environment(self):
        return {**os.environ, MARK: self.mark}

    def watch(self):
        while not self.is_over.wait(BETWEEN_LOOKS):
            for process in filter(str.isdigit, os.listdir("/proc")):
                try:
                    self.look(process)
                except (OSError, ValueError, IndexError):
                    # (it has ended)
                    pass

    def look(self, process):
        with open(f"/proc/{process}/environ", "rb") as it:
            if f"{MARK}={self.mark}".encode() not in it.read().split(b"\0"):
                return
        with open(f"/proc/{process}/cmdline", "rb") as it:
            words = it.read().decode(errors="replace").split("\0")
        with open(f"/proc/{process}/stat", encoding="utf-8", errors="replace") as it:
            fields = it.read().rpartition(")")[2].split()
        seconds = sum(map(int, fields[11:13])) / os.sysconf("SC_CLK_TCK")
        self.seen[process, fields[19]] = (*place_of(words, os.readlink(f"/proc/{process}/cwd")), seconds)

    def seconds(self):
        """Gives the processor seconds by crate and kind."""
        found = collections.Counter()
        for crate, kind, seconds in [*self.seen.values()]:
            found[crate, kind] += seconds
        return found


def place_of(words, folder):
    """Gives the crate that a process works for, if it is known, and what it is at: a proof, tests, a build, or
    something else."""
    if "--crate-name" not in words:
        return os.path.basename(folder), "build" if os.path.basename(words[0]) in ("clang", "rattle-link") else "else"
    crate = words[words.index("--crate-name") + 1]
    if "--crate-checked" in words:
        return crate, "build"
    return crate, "tests" if "--test" in words else "proof"


class Teller:
    """Takes what `rt ci` says line by line: tells a line for each proof, all that it said of one that failed, and the
    other lines as they are."""

    def __init__(self, whole, clock):
        self.whole, self.clock, self.done, self.block, self.began, self.last = whole, clock, 0, None, time.time(), ""

    def tell(self, text):
        print(f"[{(time.time() - self.began) / 60:5.1f} min] {text}", flush=True)

    def take(self, line):
        self.last = line if line.strip() else self.last
        proof = PROVED.match(line)
        if line.startswith("== "):
            self.block = []
        elif proof:
            self.end_proof(line, *proof.groups())
        elif self.block is not None:
            self.block.append(line)
        else:
            self.done += bool(KEPT.match(line))
            self.tell(line)

    def end(self):
        """Tells what is left of the last block: what came of the runs of tests and programs."""
        for it in self.block or []:
            self.tell(it)
        self.block = None

    def end_proof(self, line, crate, tests, found):
        self.done += 1
        took = f"{self.clock.seconds()[crate, 'tests' if tests else 'proof']:.0f} s of a processor"
        if KEPT_HERE in (self.block or []):
            found, took = "kept", "an earlier run proved it"
        if found == "NOT PROVED":
            for it in self.block or []:
                print(it)
        self.block = None
        self.tell(f"{self.done} of {self.whole} proofs: {crate}{tests or ''} {found} ({took})")


def run(is_anew):
    """Runs `rt ci` over all crates, and gives its status, its last line, and the clock. If it is to be anew, nothing is taken
    that an earlier run kept."""
    whole = len(crates.libraries()) + sum(map(crates.has_tests, crates.libraries()))
    with Clock() as clock:
        teller = Teller(whole, clock)
        how = {"stdout": subprocess.PIPE, "stderr": subprocess.STDOUT, "text": True, "errors": "replace"}
        words = [sys.executable, f"{crates.TOP}/.ci/prove.py", *(["--anew"] if is_anew else [])]
        with subprocess.Popen(words, cwd=crates.TOP, env=clock.environment(), **how) as ran:
            for line in ran.stdout:
                teller.take(line.rstrip("\n"))
            teller.end()
        return ran.returncode, teller.last, clock
