#!/usr/bin/env python3
"""Whether .ci/prove.py keeps what is proved, and nothing else, with a stand-in for a Rattle kit, which proves by reading a word.

Its `rt ci` refuses a crate whose source has the word `wrong`. A library of it is the words of its source that are in capitals
and those of the libraries below, so that a change elsewhere makes the same library."""

import json
import os
import shutil
import subprocess
import sys
import time
from pathlib import Path
from tempfile import TemporaryDirectory

PROVE = Path(__file__).resolve().parent / "prove.py"

RTLIB = '''
import fcntl, hashlib, os, re
KIT = os.environ["STAND_IN"]

def text_of(file):
    return open(file).read() if os.path.isfile(file) else None

def files_of(folder):
    for at, _, names in sorted(os.walk(f"{folder}/src")):
        yield from (f"{at}/{it}" for it in sorted(names))

def lock(crates):
    held = [os.open(it.folder, os.O_RDONLY) for it in crates]
    for it in held:
        fcntl.flock(it, fcntl.LOCK_EX)
    return held

class Crate:
    def __init__(self, root, name, deps):
        self.folder, self.name, self.deps, self.of_kit = f"{root}/crates/{name}", name, deps, ["std"]
        self.rlib = f"{self.folder}/out/rlib/{name}.rlib"
        self.source = "".join(map(text_of, files_of(self.folder)))
    def below(self):
        found = []
        for dep in self.deps:
            found += [it for it in [*dep.below(), dep] if it not in found]
        return found
    def makes_rlib(self):
        return not os.path.exists(f"{self.folder}/src/main.rt")
    def has_tests(self):
        return "test" in self.source
    def stamp(self):
        return hashlib.sha256((self.source + "".join(it.stamp() for it in self.deps)).encode()).hexdigest()

def crates_below(top):
    found = {}
    for line in open(f"{top}/crates.txt"):
        name, uses = line.split(":")
        found[name] = Crate(top, name, [found[it] for it in uses.split()])
    return list(found.values())
'''

RT = '''
import os, re, shutil, sys, time, types
rtlib = types.ModuleType("rtlib")
exec(open(os.environ["STAND_IN"] + "/rtlib").read(), rtlib.__dict__)

def say(text, out=None):
    print("rt:", text, file=out or sys.stdout, flush=True)

def log(text):
    with open(os.environ["STAND_IN"] + "/log", "a") as it:
        it.write(text + " ")

def handles_of(root):
    return tuple(open(f"{root}/HANDLES").read().split())

def edits_of(crate):
    return [], []

class Crate(rtlib.Crate):
    allowed = ()
    def ci(self, flags, tests):
        log(self.name + "'" * tests)
        while os.path.exists(os.environ["STAND_IN"] + "/waits"):
            time.sleep(0.05)
        if "wrong" in self.source:
            return 1
        below = [open(f"{it.rlib}/words").read() for it in self.below()]
        if self.makes_rlib() and not tests:
            os.makedirs(self.rlib, exist_ok=True)
            with open(f"{self.rlib}/words", "w") as it:
                it.write(" ".join(re.findall("[A-Z]+", self.source + " ".join(below))))
        return 0

def crates_of(root, aside):
    for it in os.listdir(f"{root}/crates"):
        if os.path.isdir(f"{root}/crates/{it}/out"):
            os.rename(f"{root}/crates/{it}/out", f"{aside}/{it}")
    rtlib.Crate = Crate
    return rtlib.crates_below(root)

def in_lanes(tasks):
    return [it() for it in tasks]

def main(words):
    if words == ["version"]:
        return print(open(os.environ["STAND_IN"] + "/KIT-ID").read().strip())
    if words == ["doc"]:
        return print(os.environ["STAND_IN"] + "/START-HERE.md")
    root, aside = os.getcwd(), os.getcwd() + ".aside"
    log(" ".join(words))
    Crate.allowed = handles_of(root)
    os.mkdir(aside)
    try:
        crates, failed = crates_of(root, aside), []
        rtlib.lock(crates)
        if any(os.path.exists(f"{it.folder}/out") for it in crates) or "refused" in crates[0].source:
            print("0 passed, 1 failed")
            return 2
        def work(it, tests):
            it.out = sys.stdout
            if {low.name for low in it.below()} & {*failed} or (not tests or it.has_tests()) and it.ci([], tests):
                failed.append(it.name)
        in_lanes([lambda it=it, tests=tests: work(it, tests) for it in crates for tests in (False, True)])
    finally:
        is_other = "13b" not in open(os.environ["STAND_IN"] + "/KIT-ID").read()
        for it in os.listdir(aside):
            for part in ["incremental", "rlib"] if is_other else ["incremental"]:
                if os.path.isdir(f"{aside}/{it}/{part}"):
                    os.makedirs(f"{root}/crates/{it}/out", exist_ok=True)
                    shutil.rmtree(f"{root}/crates/{it}/out/{part}", ignore_errors=True)
                    os.rename(f"{aside}/{it}/{part}", f"{root}/crates/{it}/out/{part}")
        shutil.rmtree(aside)
    print(f"{len(crates) - len({*failed})} passed, {len({*failed})} failed")
    return 1 if failed else 0

if __name__ == "__main__":
    sys.exit(main(sys.argv[1:]))
'''


class StandIn:
    """A stand-in kit, and a repository of it: `low`, `high` above it, `tests` with a test, and the program `shown`."""

    def __init__(self, folder):
        self.kit, self.top, self.wrong = folder / "kit", folder / "top", []
        (self.kit / "bin").mkdir(parents=True)
        self.write(self.kit / "KIT-ID", "rattle-kit-13b logic 0")
        self.write(self.kit / "WHAT", "a stand-in")
        self.write(self.kit / "rtlib", RTLIB)
        self.write(self.kit / "bin/rt", f"#!{sys.executable}{RT}")
        (self.kit / "bin/rt").chmod(0o755)
        self.repository(self.top)

    def repository(self, top):
        for name, text in {"low": "one TWO", "high": "three FOUR", "tests": "a test", "shown": "five"}.items():
            self.write(top / f"crates/{name}/src/{'main' if name == 'shown' else 'lib'}.rt", text)
        self.write(top / "crates.txt", "low:\nhigh: low\ntests: high low\nshown: high low\n")
        self.write(top / "HANDLES", "none")

    def write(self, file, text):
        file.parent.mkdir(parents=True, exist_ok=True)
        file.write_text(text)

    def start(self, *words, top=None):
        more = {"STAND_IN": str(self.kit), "PATH": f"{self.kit}/bin:{os.environ['PATH']}"}
        how = {"stdout": subprocess.PIPE, "stderr": subprocess.STDOUT, "text": True}
        return subprocess.Popen([sys.executable, PROVE, *words], cwd=top or self.top, env={**os.environ, **more}, **how)

    def log(self):
        return (self.kit / "log").read_text() if (self.kit / "log").exists() else ""

    def expect(self, what, proved, *words, last="4 passed, 0 failed", status=0, top=None):
        """Calls prove.py, and looks at what was proved (tests with a prime), its last line and its status."""
        (self.kit / "log").unlink(missing_ok=True)
        ran = self.start(*words, top=top)
        said = ran.communicate()[0]
        self.look(what, proved, self.log(), last, said, status, ran.returncode)

    def look(self, what, proved, log, last, said, status, found):
        if (log.split(), found) != (proved.split(), status) or (said.splitlines() or [""])[-1] != last:
            self.wrong.append(f"{what}: proved {log}and not {proved}, status {found}, or it does not end in {last}:\n{said}")

    def holds(self, what, is_so):
        self.wrong += [] if is_so else [what]

    def rlib(self, name, top=None):
        return (top or self.top) / f"crates/{name}/out/rlib"


def try_kept(it):
    """What is kept, and what is proved again."""
    again, every = "ci tests' shown", "ci low high tests tests' shown"
    it.write(it.top / "crates/low/out/incremental/work", "of rt check")
    it.expect("a first run", every)
    it.expect("a second one", again)
    it.holds("what rt check keeps is gone", (it.top / "crates/low/out/incremental/work").exists())
    it.holds("a library has no stamp", all((it.rlib(name) / "stamp").exists() for name in ("low", "high", "tests")))
    it.expect("with --anew", every, "--anew")
    it.write(it.top / "crates/low/src/lib.rt", "other TWO")
    it.expect("another source, the same library", "ci low tests' shown")
    it.write(it.top / "crates/low/src/lib.rt", "other SIX")
    it.expect("another library below", every)
    it.write(it.rlib("high") / "high.rlib/words", "SIX FOUR ")
    it.expect("a library that was changed", "ci high tests' shown")
    it.write(it.rlib("low") / "other.rlib/words", "TWO")
    it.expect("a library that is not alone", "ci low tests' shown")
    (it.rlib("low") / "proved.json").unlink(missing_ok=True)
    it.expect("a library without a record", "ci low tests' shown")
    record = json.loads((it.rlib("tests") / "proved.json").read_text())
    it.write(it.rlib("tests") / "proved.json", json.dumps({**record, "rests": "0"}))
    it.expect("another record", "ci tests tests' shown")
    for name, text in {"HANDLES": "Wait", "crates.txt": "low:\nhigh: low\ntests: high\nshown: high low\n"}.items():
        it.write(it.top / name, text)
        it.expect(f"another {name}", every if name == "HANDLES" else "ci tests tests' shown")
    it.write(it.kit / "WHAT", "another one")
    it.expect("another kit of this name", every)


def try_refused(it):
    """What is refused leaves no record, and what is kept of the others stays."""
    it.expect("a first run", "ci low high tests tests' shown")
    it.write(it.top / "crates/high/src/lib.rt", "wrong")
    it.expect("a crate that is not proved", "ci high", last="1 passed, 3 failed", status=1)
    it.holds("what is not proved has a record", not (it.rlib("high") / "proved.json").exists())
    it.write(it.top / "crates/high/src/lib.rt", "three FOUR")
    it.expect("its source as it was", "ci high tests' shown")
    it.write(it.top / "crates/low/src/lib.rt", "refused TWO")
    it.expect("a text that is refused", "ci", last="0 passed, 1 failed", status=2)


def try_elsewhere(it, folder):
    """What is kept at another repository, and what is taken from it."""
    it.repository(folder / "part")
    it.expect("kept elsewhere", "ci low high tests shown", str(it.top), top=folder / "part")
    it.expect("kept elsewhere, again", "ci shown", str(it.top), top=folder / "part")
    it.holds("a library stands where it is not kept", not it.rlib("low", folder / "part").exists())
    it.expect("what the other one kept", "ci tests' shown")
    it.write(folder / "part/crates/high/src/lib.rt", "seven")
    said = "kept here 0; taken 1: low; lacking 2: high tests"
    it.expect("what is taken", "", "--take", str(it.top), top=folder / "part", last=said)
    it.expect("what was taken", "ci high tests tests' shown", top=folder / "part")
    said = "kept here 3; taken 0: ; lacking 0: "
    it.expect("nothing to take", "", "--take", str(it.top), top=folder / "part", last=said)


def try_two(it):
    """Two at once: the second waits, and takes what the first kept."""
    it.write(it.kit / "waits", "")
    first = it.start()
    while "low" not in it.log():
        time.sleep(0.05)
    it.repository(it.kit / "part")
    second = it.start(str(it.top), top=it.kit / "part")
    while it.log().split().count("ci") < 2 and second.poll() is None:
        time.sleep(0.05)
    # (it goes on to the lock)
    time.sleep(0.5)
    (it.kit / "waits").unlink()
    said = [first.communicate()[0], second.communicate()[0]]
    log = "ci low ci high tests tests' shown shown"
    it.look("two at once", log, it.log(), "4 passed, 0 failed", said[1], 0, first.returncode + second.returncode)


def try_other_kits(it):
    """With another kit, and where the insides of this one are others, it is `rt ci`, and says so of this one."""
    rt = (it.kit / "bin/rt").read_text()
    it.write(it.kit / "KIT-ID", "rattle-kit-13f logic 0")
    it.write(it.rlib("low") / "low.rlib/words", "OLD")
    it.expect("another kit", "ci low high tests tests' shown")
    it.holds("with another kit there is a record", not (it.rlib("low") / "proved.json").exists())
    it.holds("what `rt ci` of another kit left is not there", (it.rlib("low") / "low.rlib/words").read_text() == "TWO")
    it.holds("what `rt ci` of another kit left has no stamp", all((it.rlib(name) / "stamp").exists() for name in ("low", "high", "tests")))
    it.expect("another kit, from nothing", "ci --anew low high tests tests' shown", "--anew")
    it.write(it.top / "crates/high/src/lib.rt", "wrong")
    it.expect("another kit that refuses a crate", "ci low high", last="1 passed, 3 failed", status=1)
    it.holds("what was there before a refusal is gone", (it.rlib("high") / "stamp").exists() and (it.rlib("tests") / "stamp").exists())
    it.repository(it.top)
    shutil.rmtree(it.rlib("high"))
    it.repository(it.kit / "part")
    it.expect("another kit, kept elsewhere", "ci low high tests tests' shown", str(it.top), top=it.kit / "part")
    it.holds("another kit keeps nothing elsewhere", (it.rlib("high") / "stamp").exists())
    it.write(it.kit / "KIT-ID", "rattle-kit-13b logic 0")
    it.write(it.kit / "bin/rt", rt.replace("in_lanes(", "in_rows("))
    ran = it.start()
    said = ran.communicate()[0]
    it.holds(f"other insides are not told: {said}", "has no in_lanes(tasks)" in said and said.endswith("4 passed, 0 failed\n"))
    it.write(it.kit / "bin/rt", rt.replace("flags, tests)", "flags, tests, more=0)"))
    said = it.start().communicate()[0]
    it.holds(f"other words of a call are not told: {said}", "has no Crate.ci(self, flags, tests)" in said)


def main():
    wrong = []
    for tried in (try_kept, try_refused, try_elsewhere, try_two, try_other_kits):
        with TemporaryDirectory() as folder:
            it = StandIn(Path(folder))
            tried(it, *([Path(folder)] if tried is try_elsewhere else []))
            wrong += it.wrong
    print(*(f"kept proofs: {it}" for it in wrong or ["each is kept as long as it holds"]), sep="\n", file=sys.stderr)
    return 1 if wrong else 0


if __name__ == "__main__":
    sys.exit(main())
