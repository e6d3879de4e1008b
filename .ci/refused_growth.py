#!/usr/bin/env python3
"""Runs programs in which one growth of memory is refused, the first, the second and so on until a run meets none. Such
a run ends with status 3, a beginning of its output and of what it reports, and behind that a line that says so (`NAME:
memory`; `ten` says it in words); or with the status and all of the output that it has where nothing is refused. (Of
wrong arguments a suggestion is left out where there is no memory for it.) The programs are those that `rt ci` built, or
where there are words NAME=PATH these alone. `rt try --fail-alloc` builds the program anew for each number, so a library
that is loaded before the program counts here."""

import os
import shutil
import subprocess
import sys
from concurrent.futures import ThreadPoolExecutor
from dataclasses import dataclass
from pathlib import Path
from tempfile import TemporaryDirectory

sys.dont_write_bytecode = True
import crates

TOP = Path(__file__).resolve().parent.parent
MEMORY = TOP / "tests" / "memory"
REFUSED = 3

# So many runs are begun before it is looked whether one of them met no growth, at most so many in all, and each case
# has more growths than the least.
TOGETHER = 64
MOST = 20_000
LEAST = 4
SECONDS = 60

LIBRARY = r"""
/* The allocation of the number REFUSE is refused; where it was, the file REFUSED says so. */
#define _GNU_SOURCE
#include <dlfcn.h>
#include <fcntl.h>
#include <stdlib.h>
#include <unistd.h>
static long calls;
static int refused(void) {
    char *number = getenv("REFUSE"), *file = getenv("REFUSED");
    if (!number || ++calls != atol(number)) return 0;
    close(open(file, O_CREAT | O_WRONLY, 0600));
    return 1;
}
void *malloc(size_t size) {
    static void *(*real)(size_t);
    if (!real) real = (void *(*)(size_t))dlsym(RTLD_NEXT, "malloc");
    return refused() ? NULL : real(size);
}
void *realloc(void *place, size_t size) {
    static void *(*real)(void *, size_t);
    if (!real) real = (void *(*)(void *, size_t))dlsym(RTLD_NEXT, "realloc");
    return refused() ? NULL : real(place, size);
}
void *aligned_alloc(size_t align, size_t size) {
    static void *(*real)(size_t, size_t);
    if (!real) real = (void *(*)(size_t, size_t))dlsym(RTLD_NEXT, "aligned_alloc");
    return refused() ? NULL : real(align, size);
}
"""


@dataclass
class Case:
    """A run of a program, and the status with which it ends where nothing is refused."""

    program: str
    words: list
    input: bytes
    status: int = 0

    def __str__(self):
        return " ".join([self.program, *self.words])

    def told(self):
        """Gives what may be written to standard error where memory was refused."""
        files = [f"{head}{it}: out of memory" for head in ("", "the script cannot be written: ") for it in self.words]
        lines = ["there is no memory" if self.program == "ten" else "memory", *files]
        return [f"{self.program}: {it}\n".encode() for it in lines]


def full_queue():
    """Gives a script that enters as many requests as there can be and one more, gives one up, and enters another."""
    lines = [f"ENQ 1 1 {i} N{i:04}/B" for i in range(1, 1025)]
    return "\n".join([*lines, "ENQ 1 1 0 N0/B", "DEQ 1 2 1", "ENQ 1 1 0 N0/B", ""]).encode()


def cases(folder):
    listing, cross = f"{folder}/words.lst", f"{folder}/words.crf"
    yield Case("lockmon", ["run"], (MEMORY / "counters.run").read_bytes())
    yield Case("lockmon", ["queue"], (MEMORY / "handed_on.queue").read_bytes())
    yield Case("lockmon", ["queue"], full_queue())
    yield Case("lockmon", ["asm"], (MEMORY / "block.mac").read_bytes())
    yield Case("lockmon", ["fly"], b"", 2)
    yield Case("lockmon", ["run", "--blocks", "32"], b"QUIT\n")
    yield Case("lockmon", ["run", "--blocks", "257"], b"", 2)
    digits = (TOP / "examples" / "digits.sav").read_bytes()
    for words in (["source"], ["list"], ["words", "--to", "dense"]):
        yield Case("image", [*words, "--from", "core"], digits)
    yield Case("image", ["save", "--to", "core"], (MEMORY / "block.mac").read_bytes())
    squares = (TOP / "examples" / "squares.mac").read_bytes()
    yield Case("macro", [], squares)
    yield Case("macro", ["--list", listing, "--cross", cross], squares)
    yield Case("macro", ["--list", listing], b" MOVEI 1,NOWHR\n END\n", 1)
    yield Case("macro", [str(TOP / "examples" / it) for it in ("names.mac", "greets.mac")], b"")
    yield Case("macro", ["--survey", str(TOP / "examples" / "slips.mac")], b"")
    yield Case("macro", ["--all-operations", str(TOP / "examples" / "asks.mac")], b"")
    yield Case("macro", ["--flies"], b"", 2)
    yield Case("ten", [str(TOP / "examples" / "squares.mac")], b"")
    yield Case("ten", [str(TOP / "examples" / "doubled.mac")], b"", 1)
    lossy, first, second = (str(TOP / "examples" / it) for it in ("lossy.mac", "a_then_b.mac", "b_then_a.mac"))
    yield Case("orders", [lossy, lossy], b"", 7)
    yield Case("orders", ["--record", f"{folder}/order.run", first, second], b"", 4)
    yield Case("orders", [str(TOP / "examples" / "doubled.mac")], b"", 1)
    yield Case("orders", ["--flies"], b"", 2)
    circle = (TOP / "examples" / "two_in_a_circle.run").read_bytes()
    yield Case("lockview", ["--explain", "--run"], circle)


class Runner:
    """Makes runs of a case by a program, over a library that refuses."""

    def __init__(self, case, path, folder):
        self.case, self.path, self.folder = case, path, folder
        self.whole = self.run({})

    def run(self, more):
        return subprocess.run(
            [self.path, *self.case.words], input=self.case.input, capture_output=True, timeout=SECONDS, check=False, env={**os.environ, **more}
        )

    def refuse(self, number):
        """Gives whether a growth was refused, and what is wrong with the run in which it was."""
        mark = Path(self.folder, f"{number}.refused")
        ran = self.run({"LD_PRELOAD": f"{self.folder}/refuse.so", "REFUSE": str(number), "REFUSED": str(mark)})
        is_refused = mark.exists()
        mark.unlink(missing_ok=True)
        begun = [ran.stderr.removesuffix(it) for it in self.case.told() if ran.stderr.endswith(it)]
        is_memory = ran.returncode == REFUSED and any(map(self.whole.stderr.startswith, begun))
        is_whole = ran.returncode == self.whole.returncode and ran.stdout == self.whole.stdout
        if is_whole or is_refused and is_memory and self.whole.stdout.startswith(ran.stdout):
            return is_refused, None
        return is_refused, f"{self.case}: growth {number}: status {ran.returncode}, {ran.stderr[:200]}, {ran.stdout[-200:]}"

    def count(self, pool):
        """Gives how many growths were refused, and what is wrong."""
        if self.whole.returncode != self.case.status:
            return 0, [f"{self.case}: the status should be {self.case.status} and is {self.whole.returncode}: {self.whole.stderr[:200]}"]
        count = 0
        for first in range(1, MOST, TOGETHER):
            found = list(pool.map(self.refuse, range(first, first + TOGETHER)))
            wrong = [it for _, it in found if it]
            count += sum(is_refused for is_refused, _ in found)
            if wrong or not all(is_refused for is_refused, _ in found):
                break
        return count, wrong or ([] if count > LEAST else [f"{self.case}: growths are not counted: {count}"])


def path_of(name, named):
    crate = crates.crate_of(name)
    return os.path.abspath(named.get(name, f"{TOP}/crates/{crate}/out/{crate}"))


def main(words):
    named = dict(word.partition("=")[::2] for word in words)
    compiler = shutil.which("cc") or shutil.which("clang") or "/opt/rattle/toolchain/bin/clang"
    total, wrong = 0, []
    with TemporaryDirectory() as folder, ThreadPoolExecutor(len(os.sched_getaffinity(0)) + 1) as pool:
        Path(folder, "refuse.c").write_text(LIBRARY, encoding="utf-8")
        subprocess.run([compiler, "-shared", "-fPIC", "-O1", "-o", f"{folder}/refuse.so", f"{folder}/refuse.c", "-ldl"], check=True)
        for case in cases(folder):
            if not named or case.program in named:
                count, found = Runner(case, path_of(case.program, named), folder).count(pool)
                total, wrong = total + count, wrong + found
    print(*wrong, f"refused growth: {total} growths refused in turn", sep="\n", file=sys.stderr)
    return 1 if wrong or not total else 0


if __name__ == "__main__":
    sys.exit(main(sys.argv[1:]))
