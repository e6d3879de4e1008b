#!/usr/bin/env python3
"""Proves the crates of the folder that it is called in as `rt ci` does, and keeps each library that it proved.

.ci/prove.py [--anew]        all that `rt ci` does; libraries are kept in crates/NAME/out/rlib. With --anew nothing is taken
                             that an earlier run kept
.ci/prove.py KEPT            libraries and programs alone, no tests; libraries are kept at KEPT, in the same folders
.ci/prove.py --take OTHER    proves nothing: takes the libraries kept at OTHER that are current here

Some kits keep nothing of what their `rt ci` proved. This is that command of such a kit, loaded as a module, so that the same
texts are refused, and the last line counts the same. It differs in this: a library that is kept is not proved again as long
as its record holds; and where crates.txt leads is worked out once, not for each way that leads down to a crate. Any other kit
keeps beside itself what its `rt ci` proved: then it is that command, and the libraries that it leaves are put where they are
kept, without a record. So it is where the kit's insides are not those that are known here.

The record of a library has the sum of all that its proof rests on, and the sum of the library itself. The first is of the
kit, HANDLES, the names that its line of crates.txt has, its sources, definitions and proofs, and the sums of the libraries below
it. What was kept goes before a proof begins; the record is written when it is done. A library that has one gets the stamp of
`rt` too, so that `rt check`, `rt lib` and `rt run` take it as it stands."""

import functools
import hashlib
import importlib.machinery
import importlib.util
import inspect
import json
import os
import re
import shutil
import signal
import subprocess
import sys
import tempfile
import types

sys.dont_write_bytecode = True

# The kit whose `rt ci` keeps nothing, as `rt version` names it.
KEEPS_NOTHING = "rattle-kit-13b"

# The record of a library, and the stamp that the kit writes, beside it.
RECORD, STAMP = "proved.json", "stamp"

# What is called or replaced of the kit, with the names of its parameters.
KNOWN = {
    "main": "words",
    "crates_of": "root aside",
    "in_lanes": "tasks",
    "edits_of": "crate",
    "handles_of": "root",
    "say": "text out",
    "Crate.ci": "self flags tests",
    "Crate.below": "self",
    "Crate.makes_rlib": "self",
    "Crate.has_tests": "self",
    "Crate.stamp": "self",
    "rtlib.lock": "crates",
    "rtlib.files_of": "folder",
    "rtlib.text_of": "file",
    "rtlib.crates_below": "top",
}


def load_rt():
    """Gives the kit's command `rt` as a module."""
    said = subprocess.run(["rt", "doc"], capture_output=True, text=True, check=True).stdout
    file = f"{os.path.dirname(said.strip())}/bin/rt"
    spec = importlib.util.spec_from_loader("kit_rt", importlib.machinery.SourceFileLoader("kit_rt", file))
    module = importlib.util.module_from_spec(spec)
    spec.loader.exec_module(module)
    return module


def why_unknown(rt):
    """Gives in what the insides of a kit differ from those that are known here, or None."""
    for path, wanted in KNOWN.items():
        try:
            found = " ".join(inspect.signature(functools.reduce(getattr, path.split("."), rt)).parameters)
        except (AttributeError, TypeError, ValueError):
            found = None
        if found != wanted:
            return f"{path}({wanted.replace(' ', ', ')})"
    return None


def sum_of_files(files, top):
    """Gives the sum of files, by their places below a folder and what is in them."""
    found = hashlib.sha256()
    for it in sorted(files):
        with open(it, "rb") as text:
            found.update(repr((os.path.relpath(it, top), hashlib.sha256(text.read()).hexdigest())).encode())
    return found.hexdigest()


def sum_of_library(folder):
    """Gives the sum of a library."""
    return sum_of_files([os.path.join(at, it) for at, _, files in os.walk(folder) for it in files], folder)


class Keeper:
    """Keeps the libraries of the crates of a repository, and knows the sums of those that are proved."""

    def __init__(self, rt, kept):
        self.rt, self.kept, self.made, self.wait_for = rt, kept, {}, rt.rtlib.lock
        self.kit = [rt.rtlib.text_of(f"{rt.rtlib.KIT}/{it}") for it in ("KIT-ID", "WHAT")]
        rt.Crate.below = functools.lru_cache(maxsize=None)(rt.Crate.below)
        rt.Crate.stamp = functools.lru_cache(maxsize=None)(rt.Crate.stamp)

    def folder_of(self, name, kept=None):
        return f"{kept or self.kept}/crates/{name}/out/rlib"

    def lock(self, names):
        """Waits until nobody else works on what is kept of these crates; that holds until this process ends."""
        folders = [f"{self.kept}/crates/{it}" for it in names]
        self.wait_for([types.SimpleNamespace(folder=it) for it in folders if os.path.isdir(it)])

    def rests_on(self, crate):
        """Gives the sum of all that the proof of a library rests on, or None where one below is not proved."""
        low = [(it.name, self.made.get(it.name)) for it in crate.below()]
        own = sum_of_files(self.rt.rtlib.files_of(crate.folder), crate.folder)
        every = [self.kit, crate.allowed, crate.name, crate.of_kit, [it.name for it in crate.deps], own, low]
        return None if None in dict(low).values() else hashlib.sha256(repr(every).encode()).hexdigest()

    def made_at(self, crate, rests, kept=None):
        """Gives the sum of the library that a repository keeps for a crate, or None where it has none that is current."""
        folder = self.folder_of(crate.name, kept)
        try:
            with open(f"{folder}/{RECORD}", encoding="utf-8") as it:
                record = json.load(it)
            is_alone = {*os.listdir(folder)} <= {f"{crate.name}.rlib", RECORD, STAMP}
            is_current = is_alone and rests is not None and record["rests"] == rests
            return record["made"] if is_current and record["made"] == sum_of_library(f"{folder}/{crate.name}.rlib") else None
        except (OSError, ValueError, KeyError):
            return None

    def is_kept(self, crate, rests):
        """Whether the library of a crate is kept and current. If so, those above it can rest on it."""
        made = self.made_at(crate, rests)
        if made:
            self.made[crate.name] = made
            self.write(crate, STAMP, crate.stamp())
        return bool(made)

    def write(self, crate, name, text):
        file = f"{self.folder_of(crate.name)}/{name}"
        with open(f"{file}.new", "w", encoding="utf-8") as it:
            it.write(text)
        os.replace(f"{file}.new", file)

    def empty(self, crate):
        """Makes the empty folder of a library that is to be proved."""
        shutil.rmtree(self.folder_of(crate.name), ignore_errors=True)
        os.makedirs(self.folder_of(crate.name))

    def keep(self, crate, rests):
        """Puts a library that was proved on record, if all is still there that its proof rests on."""
        if rests is not None and rests == self.rests_on(crate):
            made = sum_of_library(f"{self.folder_of(crate.name)}/{crate.name}.rlib")
            self.made[crate.name] = made
            self.write(crate, RECORD, json.dumps({"rests": rests, "made": made}))
            self.write(crate, STAMP, crate.stamp())

    def take(self, crate, rests, other):
        """Copies a library that another repository keeps, if it is current here; gives whether it is."""
        made = self.made_at(crate, rests, other)
        if made:
            self.empty(crate)
            own = self.folder_of(crate.name)
            shutil.copytree(f"{self.folder_of(crate.name, other)}/{crate.name}.rlib", f"{own}/{crate.name}.rlib")
            # (the other one may have been proved anew meanwhile)
            if sum_of_library(f"{own}/{crate.name}.rlib") == made:
                self.keep(crate, rests)
        return crate.name in self.made


def keep_proofs(rt, kept, is_whole, is_anew):
    """Has the kit's `rt ci` keep libraries at a repository, which may be the one that it proves."""
    keeper, prove, list_crates, run_in_lanes = Keeper(rt, kept), rt.Crate.ci, rt.crates_of, rt.in_lanes
    aside = []

    def ci(crate, flags, tests):
        if tests or not crate.makes_rlib():
            return prove(crate, flags, tests)
        rests = keeper.rests_on(crate)
        if keeper.is_kept(crate, rests):
            rt.say("kept: an earlier run proved it", crate.out)
            return 0
        keeper.empty(crate)
        status = prove(crate, flags, tests)
        if status == 0:
            keeper.keep(crate, rests)
        return status

    def crates_of(root, put_aside):
        # (before what is kept here is put aside; another process may be at it)
        keeper.lock(os.listdir(f"{root}/crates") if os.path.isdir(f"{root}/crates") else [])
        crates = list_crates(root, put_aside)
        for it in crates:
            it.rlib = f"{keeper.folder_of(it.name)}/{it.name}.rlib"
        aside[:] = [(f"{put_aside}/{it.name}/rlib", keeper.folder_of(it.name)) for it in crates] if root == kept else []
        return crates

    def in_lanes(tasks):
        """Brings back what was kept, once the texts of a repository with nothing in its folders out/ are looked at."""
        for place, to in aside:
            if is_anew:
                shutil.rmtree(place, ignore_errors=True)
            elif os.path.isdir(place):
                os.makedirs(os.path.dirname(to), exist_ok=True)
                os.rename(place, to)
        return run_in_lanes(tasks)

    rt.Crate.ci, rt.crates_of, rt.in_lanes = ci, crates_of, in_lanes
    rt.rtlib.lock = lambda crates: None
    if not is_whole:
        rt.Crate.has_tests, rt.edits_of = lambda crate: False, lambda crate: ([], [])


def libraries_of(keeper, here):
    """Gives the crates of a repository that are libraries, the lowest first."""
    rt = keeper.rt
    rt.rtlib.Crate, rt.Crate.allowed = rt.Crate, rt.handles_of(here)
    return sorted((it for it in rt.rtlib.crates_below(here) if it.makes_rlib()), key=lambda it: len(it.below()))


def are_kept(here, names):
    """Gives whether all these libraries of a repository are kept there and current."""
    rt = known_rt()
    if not rt:
        return False
    keeper = Keeper(rt, here)
    return all(keeper.is_kept(it, keeper.rests_on(it)) for it in libraries_of(keeper, here) if it.name in names)


def take(rt, here, other):
    """Takes what another repository keeps, and tells what."""
    keeper, taken, same, lacking = Keeper(rt, here), [], [], []
    libraries = libraries_of(keeper, here)
    keeper.lock([it.name for it in libraries])
    for it in libraries:
        rests = keeper.rests_on(it)
        (same if keeper.is_kept(it, rests) else taken if keeper.take(it, rests, other) else lacking).append(it.name)
    print(f"kept here {len(same)}; taken {len(taken)}: {' '.join(taken)}; lacking {len(lacking)}: {' '.join(lacking)}")


def run_ci(here, kept, is_anew):
    """Runs the kit's own `rt ci`, and gives its status. Where it passed, the libraries at `kept` are those that it left."""
    git = f"{here}/.git"
    with tempfile.TemporaryDirectory(dir=git if os.path.isdir(git) else None) as aside:
        # (`rt ci` brings back what stood here before it, which may be of other sources)
        move_libraries(f"{here}/crates/{{}}/out/rlib", f"{aside}/{{}}")
        ran = subprocess.Popen(["rt", "ci", *(["--anew"] if is_anew else [])])
        for it in (signal.SIGTERM, signal.SIGHUP, signal.SIGINT):
            signal.signal(it, lambda number, _: ran.send_signal(number))
        status = ran.wait()
        if status:
            move_libraries(f"{aside}/{{}}", f"{here}/crates/{{}}/out/rlib")
            return status
    try:
        hand_over(load_rt(), here, kept)
    except (AttributeError, TypeError, OSError, SyntaxError, subprocess.CalledProcessError) as error:
        print(f"prove.py: the libraries are not put where `rt check` finds them: {error}", file=sys.stderr, flush=True)
    return status


def move_libraries(place, to):
    """Moves the libraries of all crates, whose folders these are with the name of the crate in place of {}."""
    top = place.partition("{}")[0]
    for it in os.listdir(top) if os.path.isdir(top) else []:
        if os.path.isdir(place.format(it)):
            shutil.rmtree(to.format(it), ignore_errors=True)
            os.makedirs(os.path.dirname(to.format(it)), exist_ok=True)
            shutil.move(place.format(it), to.format(it))


def hand_over(rt, here, kept):
    """Puts the libraries that `rt ci` left where they are kept, each with the stamp of `rt`."""
    keeper, place = Keeper(rt, kept), "{0}/{1}.rlib".format
    libraries = [it for it in libraries_of(keeper, here) if os.path.isdir(place(keeper.folder_of(it.name, here), it.name))]
    keeper.lock([it.name for it in libraries])
    for it in libraries:
        if here != kept:
            keeper.empty(it)
            own, other = place(keeper.folder_of(it.name), it.name), place(keeper.folder_of(it.name, here), it.name)
            shutil.copytree(other, own, copy_function=getattr(rt, "link_or_copy", shutil.copy2))
        keeper.write(it, STAMP, it.stamp())


def known_rt():
    """Gives the command `rt` of a kit whose `rt ci` keeps nothing, as a module, if its insides are those that are known here."""
    version = subprocess.run(["rt", "version"], capture_output=True, text=True, check=True).stdout
    if not version.startswith(f"{KEEPS_NOTHING} "):
        return None
    rt = load_rt()
    unknown = why_unknown(rt)
    if unknown:
        print(f"prove.py: the rt of this kit has no {unknown}, so its own `rt ci` proves all, and keeps nothing", file=sys.stderr, flush=True)
    return None if unknown else rt


def main(words):
    flag, places = (words[0], words[1:]) if words[:1] in (["--anew"], ["--take"]) else ("", words)
    wanted = {"--anew": (0,), "--take": (1,), "": (0, 1)}[flag]
    if len(places) not in wanted or any(it.startswith("-") for it in places):
        print(*re.findall(r"^\.ci/prove\.py .*", __doc__, re.MULTILINE), sep="\n", file=sys.stderr)
        return 2
    rt, here = known_rt(), os.getcwd()
    if flag == "--take":
        return take(rt, here, os.path.realpath(places[0])) if rt else 0
    kept = os.path.realpath(places[0]) if places else here
    if not rt:
        return run_ci(here, kept, flag == "--anew")
    keep_proofs(rt, kept, not places, flag == "--anew")
    return rt.main(["ci"])


if __name__ == "__main__":
    sys.exit(main(sys.argv[1:]))
