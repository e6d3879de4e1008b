"""Tries edits with the prover: those of a crate together, as far as each changes a function of its own, and of these
functions alone.

`rt ci` and `rt must-fail` prove a crate whole before its first edit. Here the check reads the crate with its edits,
over the built libraries below it, and proves the changed functions and nothing else. What a function's contract is to
its callers does not change with its body, so an edit in one function says nothing of another's proof."""

import functools
import os
import re
import shutil
import subprocess
import tempfile
from concurrent.futures import ThreadPoolExecutor
from dataclasses import dataclass

import crates
import prove

FUNCTION = re.compile(r'^( *)(?:pub(?:\([a-z]+\))? )?(?:const |extern "C" )?fn (\w+)')
IMPL = re.compile(r"^( *)impl\b(?:<.*?>)? (?:([\w:]+)(?:<.*>)? for )?&?([\w:]+)")
TRAIT = re.compile(r"^( *)(?:pub(?:\([a-z]+\))? )?trait (\w+)")

# What the check says at a place of a file, and what it says where a proof file names what an edit took away.
SAID = re.compile(r"^(note: )?(?:\./)?(\S+?):(\d+):\d+: (.*)")
STALE = re.compile(r"has no field|is not in scope|has no `|was not admitted|\(nearest: ")
ENDED = re.compile(r"^only=(\d+) proved=(\d+)$", re.MULTILINE)


@functools.lru_cache(maxsize=None)
def kit():
    """Gives the folder of the Rattle kit."""
    said = subprocess.run(["rt", "doc"], capture_output=True, text=True, check=True).stdout
    return os.path.dirname(said.strip())


@dataclass(frozen=True)
class Place:
    """A function of a crate: its path below the crate, and its lines in its file, with those of its attributes. Of a
    function that only reads what the edit changes, as a table, there are no lines."""

    path: str
    file: str = ""
    first: int = 0
    last: int = 0


def last_line_of(lines, first, indent):
    """Gives the line that ends the item which begins at a line, as `rt fmt` lays it out."""
    if lines[first].rstrip().endswith(("}", ";")) and lines[first].count("{") == lines[first].count("}"):
        return first
    return next((at for at in range(first + 1, len(lines)) if lines[at].startswith(f"{indent}}}")), len(lines) - 1)


def owner_of(lines, first):
    """Gives the type, or the impl of a trait, that a method stands in."""
    for at in range(first, -1, -1):
        found, trait = IMPL.match(lines[at]), TRAIT.match(lines[at])
        if trait:
            return trait[2]
        if found:
            of_trait, type_ = ((it or "").rpartition("::")[2] for it in found.groups()[1:])
            return type_ + of_trait
    return ""


def place_of(edit):
    """Gives the function that holds all that an edit changes, or the one that a line `function: PATH` of the edit
    names, or None if there is neither."""
    named = [it.removeprefix("function: ") for it in crates.text_of(edit.path).splitlines() if it.startswith("function: ")]
    if named:
        return Place(named[0])
    file, pairs = edit.pairs()
    text = crates.text_of(file)
    lines = text.splitlines()
    found = set()
    for old, _ in pairs:
        at = text.count("\n", 0, text.find(old)) if old in text else 0
        first = next((it for it in range(at, -1, -1) if FUNCTION.match(lines[it])), None)
        if first is None:
            return None
        indent, name = FUNCTION.match(lines[first]).groups()
        last = last_line_of(lines, first, indent)
        if at > last:
            return None
        owner = [owner_of(lines, first)] if indent else []
        while first and lines[first - 1].strip() and not lines[first - 1].endswith("{"):
            first -= 1
        inside = os.path.relpath(file, f"{crates.TOP}/crates/{edit.crate}")
        module = inside.removeprefix("src/").removesuffix(".rt").removesuffix("/mod").replace("/", "::")
        path = [*([] if module in ("lib", "main") else [module]), *owner, name]
        found.add(Place("::".join(path), inside, first + 1, last + 1))
    return found.pop() if len(found) == 1 else None


def edited(edits):
    """Gives the text of each file that edits change, by its path."""
    texts = {}
    for it in edits:
        file, pairs = it.pairs()
        text = texts.get(file) or crates.text_of(file)
        for old, new in pairs:
            if text.count(old) != 1:
                raise ValueError(f"{it}: what it changes stands {text.count(old)} times")
            text = text.replace(old, new)
        texts[file] = text
    return texts


def command(crate, paths):
    """Gives the words of a check of some functions of a crate, or of all of it."""
    mine, of_kit = [it for it in crates.libraries()[crate] if it in crates.libraries()], ["std"]
    of_kit += [it for it in crates.libraries()[crate] if it not in mine]
    rlib = "{0}/crates/{1}/out/rlib".format
    root = next(it for it in ("lib", "main") if os.path.exists(f"{crates.TOP}/crates/{crate}/src/{it}.rt"))
    words = [f"{kit()}/bin/rattle", "check", "--crate-name", crate, f"src/{root}.rt"]
    for it in of_kit:
        words += ["--extern", f"{it}={kit()}/rlibs/{it}.rlib"]
    words += ["-L", f"dependency={kit()}/rlibs"]
    for it in mine:
        words += ["--extern", f"{it}={rlib(crates.TOP, it)}/{it}.rlib"]
    for it in crates.below(crate):
        words += ["-L", f"dependency={rlib(crates.TOP, it)}"]
    words += ["--crate-type", "staticlib"] * crates.is_static(crate)
    words += ["--antt-project", f"{kit()}/rattle/logic/antt-project.json", "--logic-built", f"{kit()}/logic_built", "--jobs", "1"]
    return [*words, *(word for it in paths for word in ("--only", it))]


def said_of(crate, edits, paths):
    """Checks a copy of a crate with edits, and gives all that the check said."""
    with tempfile.TemporaryDirectory(prefix="hirvodas-edits-") as room:
        for part in crates.PARTS:
            if os.path.isdir(f"{crates.TOP}/crates/{crate}/{part}"):
                shutil.copytree(f"{crates.TOP}/crates/{crate}/{part}", f"{room}/{part}")
        for file, text in edited(edits).items():
            with open(f"{room}/{os.path.relpath(file, f'{crates.TOP}/crates/{crate}')}", "w", encoding="utf-8") as to:
                to.write(text)
        how = {"cwd": room, "stdin": subprocess.DEVNULL, "stdout": subprocess.PIPE, "stderr": subprocess.STDOUT}
        return subprocess.run(command(crate, paths), errors="replace", check=False, **how).stdout


def refusal(said, place=None):
    """Gives what the check said first against a function, or against any: a goal of its code or of its proof that is
    not reached, and not a name of its proof that the edit took away; or None if it said no such thing."""
    proofs = "proofs/" if not place or not place.file else f"proofs/{place.path.replace('::', '/')}/"
    for line in said.splitlines():
        found = SAID.match(line)
        if not found:
            continue
        note, file, number, text = found.groups()
        in_code = file.startswith("src/") if not place else file == place.file and place.first <= int(number) <= place.last
        if (in_code and ("is not proved" in text or not note)) or (file.startswith(proofs) and not note and not STALE.search(text)):
            return f"{file}:{number}: {text}"
    return None


@dataclass
class Verdict:
    """What came of an edit: the goal that refused it, or why none did; and whether the prover refused it at all."""

    edit: object
    goal: str = None
    why: str = ""
    is_refused: bool = False

    def __str__(self):
        if self.goal:
            return f"{self.edit}: refused: {self.goal[:160]}"
        return f"{self.edit}: {'refused, but' if self.is_refused else 'NOT REFUSED'}: {self.why}"


def tried_together(crate, edits, places):
    """Tries edits of different functions in one check, and gives the goal that refused each, or None for one that no
    goal of its function refused; or None for all if the check did not come to its end."""
    try:
        said = said_of(crate, edits, [it.path for it in places])
    except ValueError:
        return [None] * len(edits)
    if not ENDED.search(said):
        return [None] * len(edits)
    proved = set(re.findall(rf"^fn {crate}::(\S+): proved$", said, re.MULTILINE))
    return [None if it.path in proved else refusal(said, it) for it in places]


def tried_alone(crate, edit, place):
    """Tries one edit: by the function that it changes, and by the whole crate where that shows nothing."""
    goal = tried_together(crate, [edit], [place])[0] if place else None
    if goal:
        return Verdict(edit, goal, is_refused=True)
    try:
        said = said_of(crate, [edit], [])
    except ValueError as error:
        return Verdict(edit, why=str(error))
    lines = said.rstrip().split("\n")
    if not lines[-1].startswith("logic="):
        first = next((it for it in lines if "error" in it), lines[-1])
        return Verdict(edit, why=f"it did not reach the prover: {first[:200]}")
    if lines[-1].startswith("logic=proved"):
        return Verdict(edit, why="the crate is still proved")
    return Verdict(edit, refusal(said), "only a proof file that names what the edit took away refuses it", is_refused=True)


def batches_of(edits):
    """Gives the edits in batches in each of which no two change one function, and apart those that change none, each
    with the function that reads what it changes."""
    batches, alone = [], []
    for it in edits:
        place = place_of(it)
        if place is None or not place.file:
            alone.append((it, place))
            continue
        fitting = next((batch for batch in batches if place not in batch.values()), None)
        if fitting is None:
            batches.append(fitting := {})
        fitting[it] = place
    return batches, alone


def tried(crate, edits):
    """Tries the edits of a crate, and gives a verdict on each."""
    batches, alone = batches_of(edits)
    found = [tried_alone(crate, *it) for it in alone]
    for batch in batches:
        goals = tried_together(crate, [*batch], [*batch.values()])
        # (one that can't be compiled keeps the others of its batch from the prover)
        found += [Verdict(it, goal, is_refused=True) if goal else tried_alone(crate, it, batch[it]) for it, goal in zip(batch, goals, strict=True)]
    return found


def build_libraries(names):
    """Builds the libraries below these crates, where they are not there. Those that .ci/prove.py keeps are taken as they
    stand. `rt ci` leaves them without a stamp, each fit for the others that it left, and they are taken so."""
    needed = list(dict.fromkeys(low for it in names for low in crates.below(it)))
    if prove.are_kept(crates.TOP, needed):
        return True
    folders = {it: f"{crates.TOP}/crates/{it}/out/rlib" for it in needed}
    if all(os.path.isdir(f"{at}/{it}.rlib") and not os.path.exists(f"{at}/stamp") for it, at in folders.items()):
        return True
    tops = [it for it in needed if not any(it in crates.below(other) for other in needed)]
    return all(subprocess.run(["rt", "lib"], cwd=f"{crates.TOP}/crates/{it}", check=False).returncode == 0 for it in tops)


def try_all(edits, tell):
    """Tries edits, as many crates at a time as there are processors, tells each verdict, and gives the names of those
    that a goal refused, and of those that the prover did not refuse at all."""
    names = list(dict.fromkeys(it.crate for it in edits))
    if not build_libraries(names):
        tell("the libraries below the crates of the edits were not built")
        return set(), {str(it) for it in edits}
    shown, passed = set(), set()
    with ThreadPoolExecutor(len(os.sched_getaffinity(0))) as pool:
        for found in pool.map(lambda name: tried(name, [it for it in edits if it.crate == name]), names):
            for it in found:
                tell(str(it))
            shown |= {str(it.edit) for it in found if it.goal}
            passed |= {str(it.edit) for it in found if not it.is_refused}
    return shown, passed
