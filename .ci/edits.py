"""The edits that must fail: wrong bodies of functions, each of which the prover has to refuse.

Those in crates/NAME/must-fail are tried by each run of the gate. The others, in crates/NAME/must-fail-recorded, have
the same form. What an edit comes to depends on the logic, its crate, what the crates below promise, and its own text
alone, so tests/refused_edits.txt has the sum of these for each edit that was seen refused. A run of the gate tries the
edits whose sum is another one now, and some whose sum is the same, so that a false record is found."""

import contextlib
import hashlib
import os
import random

import crates

GATE = "must-fail"
RECORDED = "must-fail-recorded"
RECORD = f"{crates.TOP}/tests/refused_edits.txt"

# So many edits whose sum is the recorded one are tried nevertheless.
TRIED_AGAIN = 10

# Where the edits of the gate stand while `rt ci` runs.
ASIDE = f"{crates.TOP}/.git/must-fail"


class Edit:
    """An edit of a crate, and whether each run of the gate tries it."""

    def __init__(self, crate, folder, file):
        self.crate, self.name, self.is_of_gate = crate, file.removesuffix(".edit"), folder == GATE
        self.path = f"{crates.TOP}/crates/{crate}/{folder}/{file}"

    def __str__(self):
        return f"{self.crate}/{self.name}"

    def pairs(self):
        """Gives the file that it changes, and each text that goes with the one that comes in its place."""
        lines = crates.text_of(self.path).splitlines()
        file = next(it.removeprefix("file: ") for it in lines if it.startswith("file: "))
        olds, news = ([it.removeprefix(word) for it in lines if it.startswith(word)] for word in ("old: ", "new: "))
        return f"{crates.TOP}/crates/{self.crate}/{file}", list(zip(olds, news, strict=True))

    def is_fit(self):
        """Gives whether it can be made: each text that goes stands in its file once."""
        try:
            file, pairs = self.pairs()
            text = crates.text_of(file)
        except (OSError, StopIteration, ValueError):
            return False
        for old, new in pairs:
            if text.count(old) != 1:
                return False
            text = text.replace(old, new)
        return bool(pairs)

    def sum(self):
        """Gives the sum of all that the verdict on it rests on."""
        own = (crates.sum_of(self.crate), self.name, crates.text_of(self.path))
        return hashlib.sha256(repr(own).encode()).hexdigest()


def all_edits():
    """Gives each edit, by crates in the order of crates.txt."""
    found = []
    for crate in crates.libraries():
        for folder in (GATE, RECORDED):
            at = f"{crates.TOP}/crates/{crate}/{folder}"
            files = sorted(os.listdir(at)) if os.path.isdir(at) else []
            found += [Edit(crate, folder, it) for it in files if it.endswith(".edit")]
    return found


def recorded():
    """Gives the recorded sum of each edit that was refused, by its name."""
    if not os.path.exists(RECORD):
        return {}
    lines = [it.split() for it in crates.text_of(RECORD).splitlines() if not it.startswith("#")]
    return {name: sum for name, sum in lines}


def write_record(refused, tried):
    """Writes the record anew: an edit that was tried has its sum there if it was refused, and none else; the others
    keep theirs."""
    kept = recorded()
    lines = ["# The edits that the prover was seen to refuse, each with the sum of what that rests on. `./check --edits` writes this file."]
    for it in all_edits():
        sum = it.sum() if str(it) in refused else None if str(it) in tried else kept.get(str(it))
        lines += [f"{it} {sum}"] if sum else []
    with open(RECORD, "w", encoding="utf-8") as to:
        to.write("\n".join(lines) + "\n")


def of_a_run(commit):
    """Gives the edits that a run of the gate tries: its own; the others whose sum is not the recorded one; and some of
    those whose sum is, chosen by the commit's name. These are of as few crates as can be, since the libraries of a
    crate are read for its first edit."""
    known = recorded()
    own = [it for it in all_edits() if it.is_of_gate]
    others = [it for it in all_edits() if not it.is_of_gate]
    changed = [it for it in others if known.get(str(it)) != it.sum()]
    same = [it for it in others if it not in changed]
    order = sorted({it.crate for it in same})
    random.Random(commit).shuffle(order)
    return own, changed, sorted(same, key=lambda it: order.index(it.crate))[:TRIED_AGAIN]


def put_back():
    """Puts the edits of the gate back where they stand."""
    for crate in os.listdir(ASIDE) if os.path.isdir(ASIDE) else []:
        os.rename(f"{ASIDE}/{crate}", f"{crates.TOP}/crates/{crate}/{GATE}")


@contextlib.contextmanager
def kept_from_rt_ci():
    """Hides the edits of the gate for as long as `rt ci` runs: it would prove each of their crates once more, whole,
    where a check of the functions that they change costs seconds."""
    put_back()
    os.makedirs(ASIDE, exist_ok=True)
    try:
        for crate in crates.libraries():
            if os.path.isdir(f"{crates.TOP}/crates/{crate}/{GATE}"):
                os.rename(f"{crates.TOP}/crates/{crate}/{GATE}", f"{ASIDE}/{crate}")
        yield
    finally:
        put_back()
