#!/usr/bin/env python3
"""Builds the lock library, and tries it with clients in C, C++, Python and Rust.

.ci/library.py          builds what is not current in out/library, and tries all
.ci/library.py --build  builds alone: the archive and the shared object, for ./install

    lockmon=PATH        compares with this `lockmon`, and not with the one that `rt ci` built
    target=aarch64      builds for another processor, with the compiler and the C library for it (Debian:
                         gcc-aarch64-linux-gnu, libc6-dev-arm64-cross)

The clients are compiled with cc, and with c++ and rustc if they are there. What is tried:
- the examples, scripts and tables of `lockmon queue`, and random scripts, by a client in C that reads its language;
- a load of sixty clients who hang up at random: the table is empty in the end, and `lockmon queue` answers each recorded
  call in the same way;
- each allocation of locks_make fails in turn;
- the clients of examples/library, and that the header says what the library's sources say;
- the library for aarch64, with the client that reads the queue's language, where its compiler and an emulator are there."""

import os
import random
import re
import shutil
import socket
import subprocess
import sys
import tempfile
import threading
import time
from dataclasses import dataclass
from pathlib import Path

sys.dont_write_bytecode = True
import crates
import trials
import written

TOP = Path(crates.TOP)
CRATE = "locks_c"
OUT = TOP / "out/library"
HEADERS, EXAMPLES, TESTS = TOP / "contrib/library", TOP / "examples/library", TOP / "tests/library"

STRICT = ["-std=gnu11", "-O2", "-Wall", "-Wextra", "-Werror"]
SECONDS = 300

# So many random scripts are compared, on another processor so many, and so many calls are made by sixty clients.
SCRIPTS = 300
SCRIPTS_ELSEWHERE = 60
CALLS = 1_000_000

NAMES = ["A", "B", "C", "LEDGER", "x", "ACCT.B", "#17", "#377777", "N12345678901234567890123456789", "N123456789012345678901234567890"]


class Failed(Exception):
    """What does not hold."""


@dataclass(frozen=True)
class Processor:
    """Where the library runs: the processor's name, the tools for it, where what is built stands, and what runs programs."""

    name: str
    compiler: str
    archiver: str
    out: Path
    runs: tuple = ()

    def archive(self):
        return self.out / "libhirvodas-locks.a"

    def shared(self):
        return self.out / "libhirvodas-locks.so"

    def is_there(self):
        """Whether its tools are there with a C library, and what runs its programs."""
        if not all(map(shutil.which, [self.compiler, self.archiver, *self.runs])):
            return False
        words = [self.compiler, "-x", "c", "-fsyntax-only", "-"]
        return subprocess.run(words, input=b"#include <stdlib.h>\n", capture_output=True, check=False).returncode == 0


HERE = Processor("x86_64", "cc", "ar", OUT)
AARCH64 = Processor("aarch64", "aarch64-linux-gnu-gcc", "aarch64-linux-gnu-ar", OUT / "aarch64", ("qemu-aarch64-static",))
PACKAGES = "gcc-aarch64-linux-gnu, libc6-dev-arm64-cross, qemu-user-static"
ARCHIVE, SHARED = HERE.archive(), HERE.shared()


def run(words, seconds=SECONDS, **how):
    """Runs a command that has to end with status 0, in so many seconds if they are given, and gives what it wrote."""
    ran = subprocess.run([str(it) for it in words], capture_output=True, timeout=seconds, check=False, **how)
    if ran.returncode:
        raise Failed(f"{' '.join(str(it) for it in words)} ends with status {ran.returncode}: {ran.stderr.decode(errors='replace')[-2000:]}")
    return ran.stdout


# ---- building


def rlib(name):
    return TOP / f"crates/{name}/out/rlib/{name}.rlib"


def newest(names):
    """Gives when the newest source of these crates was written."""
    return max(os.path.getmtime(file) for it in names for file in crates.files_of(it))


def is_built(name):
    """Whether a library is there, and no source of it or below it is newer."""
    made = rlib(name) / "format"
    return made.is_file() and made.stat().st_mtime >= newest([name, *crates.below(name)])


def is_current(processor):
    """Whether the archive is there, and no source is newer."""
    files, sources = [processor.archive(), processor.shared()], newest([CRATE, *crates.below(CRATE)])
    return all(it.is_file() and it.stat().st_mtime >= sources for it in files)


def prove_libraries():
    """Proves the libraries below, as far as they are not kept, in a repository of these crates alone."""
    needed = crates.below(CRATE)
    if all(map(is_built, needed)):
        return
    if not re.match(r"rattle-kit-13b ", run(["rt", "version"]).decode()):
        run_aloud(["rt", "lib"], TOP / "crates/locks_c")
        return
    with tempfile.TemporaryDirectory() as room:
        shutil.copy(TOP / "HANDLES", room)
        with open(f"{room}/crates.txt", "w", encoding="utf-8") as to:
            to.writelines(f"{it}: {' '.join(crates.libraries()[it])}\n" for it in needed)
        for it in needed:
            for part in crates.PARTS:
                if (TOP / "crates" / it / part).is_dir():
                    shutil.copytree(TOP / "crates" / it / part, f"{room}/crates/{it}/{part}")
        run_aloud(["python3", TOP / ".ci/prove.py", TOP], room)


def run_aloud(words, folder):
    """Runs a command whose output is told."""
    ran = subprocess.run([str(it) for it in words], cwd=folder, stdin=subprocess.DEVNULL, stdout=sys.stderr, check=False)
    if ran.returncode:
        raise Failed(f"{' '.join(str(it) for it in words)} ends with status {ran.returncode}")


def objects_for(processor, room):
    """Has the library proved and compiled for a processor, and gives where its objects are, with the calls for memory."""
    archive, objects = f"{room}/lib{CRATE}.a", f"{room}/objects"
    words = trials.command(CRATE, [])
    words[1], words[words.index("--jobs") + 1] = "build", str(min(4, len(os.sched_getaffinity(0))))
    # (what is proved for one processor is not proved again for the other)
    words += ["--target", f"{processor.name}-unknown-linux-gnu", "--incremental", OUT / "proofs"]
    run([*words, "--toolchain", f"{trials.kit()}/toolchain", "-o", archive], seconds=None, cwd=TOP / "crates" / CRATE)
    os.mkdir(objects)
    run([processor.archiver, "x", archive], cwd=objects)
    if processor == HERE:
        run(["ar", "x", f"{trials.kit()}/c/liblibc_c.a"], cwd=objects)
    else:
        run([processor.compiler, *STRICT, "-fPIC", "-c", HEADERS / "heap.c", "-o", f"{objects}/heap.o"])
    return objects


def build(processor=HERE):
    """Builds the archive with the calls for memory in it, and the shared object."""
    if is_current(processor):
        return
    prove_libraries()
    processor.out.mkdir(parents=True, exist_ok=True)
    (OUT / "proofs").mkdir(exist_ok=True)
    with tempfile.TemporaryDirectory() as room:
        archive, shared, exports = f"{room}/archive", f"{room}/shared", f"{room}/exports"
        run([processor.archiver, "rcs", archive, *sorted(Path(objects_for(processor, room)).glob("*.o"))])
        Path(exports).write_text("{ global: locks_*; local: *; };\n")
        words = [processor.compiler, "-shared", f"-Wl,-soname,{SHARED.name}", f"-Wl,--version-script={exports}", "-o", shared]
        run([*words, "-Wl,--whole-archive", archive, "-Wl,--no-whole-archive"])
        for made, to in ((archive, processor.archive()), (shared, processor.shared())):
            shutil.copy(made, f"{to}.new")
            os.replace(f"{to}.new", to)


def compiled(room, name, source, *words, compiler="cc", flags=STRICT):
    """Compiles a client with the archive, and gives its path."""
    program = f"{room}/{name}"
    run([compiler, *flags, f"-I{HEADERS}", source, ARCHIVE, *words, "-o", program])
    return program


# ---- beside `lockmon queue`


def answers_of(program, script):
    return run(program, input=script)


def try_cases(reader, *runs):
    """Has the client obey each example, script and table of the queue's language whose lines are right."""
    found = [it for it in written.all_cases() if it.words == ("queue",) and not it.is_told]
    found = [it for it in found if b"?SCRIPT" not in it.wanted and b"QUIT" not in it.script]
    if len(found) < 100:
        raise Failed(f"only {len(found)} cases of lockmon queue are found")
    for it in found:
        fault = written.difference(it.wanted, answers_of([*runs, reader], it.script))
        if fault:
            raise Failed(f"{it.place}: {fault}")
    return f"{len(found)} examples, scripts and cases of lockmon queue"


def lock_at_random(draw):
    """Gives a lock of the queue's language, not always one that fits."""
    options = ""
    if draw.random() < 0.35:
        options += "/S" + (f"/G{draw.randrange(3)}" if draw.random() < 0.3 else "")
    elif draw.random() < 0.2:
        options += f"/P{draw.choice([5, 5, 6])}:{draw.randrange(7)}"
    options += "/B" if draw.random() < 0.3 else ""
    options += f"/L{draw.choice([1, 2, 3, 4, 5, 511])}" if draw.random() < 0.5 else ""
    return options + ("/J" if draw.random() < 0.1 else "")


def line_at_random(draw, names, jobs):
    """Gives a line of the queue's language."""
    job, what, f = draw.randrange(1, jobs + 1), draw.random(), draw.choice([0, 0, 0, 1, 2])
    locks = " ".join(draw.choice(names) + lock_at_random(draw) for _ in range(draw.choice([1, 1, 1, 2, 2, 3, 16])))
    named = " ".join(draw.choice(names) for _ in range(draw.choice([1, 1, 2])))
    if what < 0.52:
        return f"ENQ {job} {f} {draw.randrange(9)} {locks}" if what < 0.45 else f"ENQ {job} 3 0 {locks}"
    if what < 0.8:
        return f"DEQ {job} 0 {named}" if what < 0.7 else f"DEQ {job} 1" if what < 0.75 else f"DEQ {job} 2 {draw.randrange(9)}"
    if what < 0.94:
        return f"FREE {job}" if what < 0.88 else f"STAT {job} {named}"
    return draw.choice(["SHOW", "WAITS"])


def try_random_scripts(reader, lockmon, *runs, scripts=SCRIPTS):
    draw, lines = random.Random(1), 0
    for number in range(scripts):
        names, jobs = draw.sample(NAMES, draw.randrange(1, 7)), draw.choice([2, 3, 5, 12, 63])
        script = [line_at_random(draw, names, jobs) for _ in range(draw.randrange(20, 400))]
        text = "".join(f"{it}\n" for it in [*script, "SHOW", "WAITS"] if len(it) <= 256).encode()
        wanted = answers_of([lockmon, "queue"], text)
        fault = written.difference(wanted, answers_of([*runs, reader], text))
        if fault:
            (OUT / "differs.queue").write_bytes(text)
            raise Failed(f"random script {number}, which is kept in out/library/differs.queue: {fault}")
        lines += wanted.count(b"\n")
    return f"{scripts} random scripts with {lines} lines of answers"


def try_elsewhere(room, lockmon):
    """Tries the library for another processor, run by an emulator."""
    build(AARCH64)
    reader = f"{room}/elsewhere"
    run([AARCH64.compiler, *STRICT, "-static", f"-I{HEADERS}", TESTS / "queue_lines.c", AARCH64.archive(), "-o", reader])
    said = [try_cases(reader, *AARCH64.runs), try_random_scripts(reader, lockmon, *AARCH64.runs, scripts=SCRIPTS_ELSEWHERE)]
    return f"for {AARCH64.name}: {', '.join(said)}"


def try_load(room, lockmon):
    """Has sixty clients call one table, and compares what each call returned."""
    program, script, answers = compiled(room, "soak", TESTS / "soak.c", "-pthread"), f"{room}/load.queue", f"{room}/load.out"
    said = run([program, CALLS, os.getpid(), script, answers]).decode().strip()
    if not re.search(r"[1-9]\d{3,} waits, [1-9]\d{3,} times", said):
        raise Failed(f"the load hardly makes a client wait: {said}")
    fault = written.difference(Path(answers).read_bytes(), answers_of([lockmon, "queue"], Path(script).read_bytes()))
    if fault:
        raise Failed(f"the recorded calls of the load: {fault}")
    return f"sixty clients: {said}, and lockmon queue answers the same"


# ---- clients


def try_python():
    how = {**os.environ, "PYTHONPATH": str(HEADERS), "PYTHONDONTWRITEBYTECODE": "1"}
    run([sys.executable, TESTS / "try_python.py", SHARED], env=how)
    said = run([sys.executable, EXAMPLES / "drives.py", SHARED], env=how)
    if said != (EXAMPLES / "drives.out").read_bytes():
        raise Failed(f"examples/library/drives.py writes {said.decode()}")
    return "the Python module and its client"


def try_rust(room):
    words = ["rustc", "--edition", "2024", "-O", "-L", OUT, "-l", "static=hirvodas-locks", "-o", f"{room}/threads"]
    run([*words, EXAMPLES / "threads.rs"])
    said = run([f"{room}/threads"]).decode()
    if said != "16000 of 16000, 0 requests left\n":
        raise Failed(f"examples/library/threads.rs writes {said}")
    return "the client in Rust: eight threads"


def ask(client, text):
    client.send(text.encode())
    return client.recv(16).decode()


def connect(at):
    client = socket.socket(socket.AF_UNIX, socket.SOCK_SEQPACKET)
    client.connect(at)
    return client


def count_in(at, file, number, turns, faults):
    """Counts in a file by turns, as a client of the guard; the first one hangs up while it owns the file."""
    client = connect(at)
    for turn in range(turns):
        if ask(client, "w shared") != "yes":
            faults.append(f"client {number} is not let in")
        last = int((file.read_text().split() or ["0"])[-1])
        with open(file, "a", encoding="utf-8") as to:
            to.write(f"{last + 1}\n")
        if number == 0 and turn == turns // 2:
            client.close()
            client = connect(at)
        elif ask(client, ".") != "yes":
            faults.append(f"client {number} cannot give up")
    client.close()


def try_guard(room):
    """Has twenty clients write to one file by turns, and lets a client wait for too long."""
    program, at, file, faults = compiled(room, "guard", EXAMPLES / "guard.c"), f"{room}/socket", Path(room, "shared"), []
    guard = subprocess.Popen([program, at, "3000"])
    try:
        while not os.path.exists(at) and guard.poll() is None:
            time.sleep(0.01)
        file.touch()
        clients = [threading.Thread(target=count_in, args=(at, file, it, 25, faults)) for it in range(20)]
        for it in clients:
            it.start()
        for it in clients:
            it.join(SECONDS)
        first, second, third = (connect(at) for _ in range(3))
        said = [ask(first, text) for text in ("w", "r " + "x" * 31, ".", "r long")]
        second.send(b"w long")
        time.sleep(1.5)
        third.send(b"r long")
        # (the writer's time is over first; then the reader behind it is let in beside the other)
        said += [second.recv(16).decode(), third.recv(16).decode()]
    finally:
        guard.kill()
        guard.wait()
    if faults or file.read_text().split() != [str(it + 1) for it in range(500)]:
        raise Failed(f"the writes through the guard are mixed up {faults[:3]}")
    if said != ["no 6", "no 6", "no 12", "yes", "no 17", "yes"]:
        raise Failed(f"the guard says {said}")
    return "the guard: twenty clients, 500 writes in turn, and a wait that is over"


def try_clients(room):
    yield try_guard(room)
    if shutil.which("c++"):
        run([compiled(room, "in_cpp", TESTS / "in_cpp.cc", compiler="c++", flags=["-Wall", "-Wextra", "-Werror"])])
        yield "a client in C++"
    for name in ("turns", "spool"):
        if run([compiled(room, name, EXAMPLES / f"{name}.c")]) != (EXAMPLES / f"{name}.out").read_bytes():
            raise Failed(f"examples/library/{name}.c writes something else")
    yield "the clients in C: turns and spool"
    yield try_python()
    if shutil.which("rustc"):
        yield try_rust(room)


def try_all(lockmon):
    with tempfile.TemporaryDirectory() as room:
        reader = compiled(room, "queue_lines", TESTS / "queue_lines.c")
        yield try_cases(reader)
        yield try_random_scripts(reader, lockmon)
        wraps = [f"-Wl,--wrap={it}" for it in ("malloc", "realloc", "free")]
        yield "no memory: " + run([compiled(room, "no_memory", TESTS / "no_memory.c", *wraps)]).decode().strip()
        yield try_load(room, lockmon)
        yield from try_clients(room)
        if AARCH64.is_there():
            yield try_elsewhere(room, lockmon)
        else:
            yield f"for {AARCH64.name}: not tried, since its compiler, its C library or {AARCH64.runs[0]} is not there (Debian: {PACKAGES})"


def main(words):
    lockmon = next((it.removeprefix("lockmon=") for it in words if it.startswith("lockmon=")), TOP / "crates/lockmon/out/lockmon")
    lockmon = os.path.abspath(lockmon)
    os.chdir(TOP)
    began = time.time()
    try:
        build(AARCH64 if f"target={AARCH64.name}" in words else HERE)
        print(f"library: built ({time.time() - began:.0f} seconds)", file=sys.stderr)
        if "--build" in words:
            return 0
        run([".ci/header.py"])
        for said in try_all(lockmon):
            print(f"library: {said} ({time.time() - began:.0f} seconds)", file=sys.stderr, flush=True)
    except (Failed, subprocess.TimeoutExpired) as fault:
        print(f"library: {fault}", file=sys.stderr)
        return 1
    return 0


if __name__ == "__main__":
    sys.exit(main(sys.argv[1:]))
