#!/usr/bin/env python3
"""Rows of the processor: a line `instruction | before | after` of a table NAME.rows has an instruction as a source has
it, which stands at 140 octal in a job of one block of core, what is not 0 before it, and what it changes. `lockmon asm`
assembles the instruction, and `ka_run` carries it out: those that `rt ci` built, by both compilers, or lockmon=PATH and
ka_run=PATH. What differs is told, and the last line counts what holds."""

import os
import re
import subprocess
import sys
from concurrent.futures import ThreadPoolExecutor
from dataclasses import dataclass, field

TOP = os.path.dirname(os.path.dirname(os.path.realpath(__file__)))
TABLE = "tests/processor/instructions.rows"
PROGRAMS, BUILDS = ("lockmon", "ka_run"), ("", ".by-rattle")

# Where the instruction stands.
FIRST = 0o140

# The flags, by the bits of a PC word's left half, in which User is always set.
FLAGS = {"OV": 0o400000, "C0": 0o200000, "C1": 0o100000, "ND": 0o40}
USER = 0o10000

# How an instruction ends that stops the job or calls the monitor, as `ka_run` writes it.
STOPS = {"ILLEGAL-ADDRESS": 1, "ILLEGAL-INSTRUCTION": 2, "HALT": 3, "PUSHDOWN": 4, "ADDRESS-CHAIN": 5}
CALLS = {"CALLI": "47", "TTCALL": "51"}

# Words and addresses are below these.
WORDS, HALVES = 1 << 36, 1 << 18

LISTED = re.compile(r"(?:AC )?([0-7]+)/? ([0-7]{6}),,([0-7]{6})")
SECONDS = 10


class NoRow(Exception):
    """A line is no row."""


@dataclass
class State:
    """The words of a job that are not 0, by their addresses, its PC and flags, and how its last instruction ended."""

    words: dict = field(default_factory=dict)
    pc: int = FIRST
    flags: set = field(default_factory=set)
    end: str = "END DONE"

    def take(self, item):
        """Takes one word of a row."""
        name, slash, value = item.partition("/")
        if item in FLAGS:
            self.flags.add(item)
        elif item in STOPS:
            self.end = f"END STOP {STOPS[item]}"
        elif slash and name == "PC":
            self.pc = number_of(value, HALVES)
        elif slash and name in CALLS:
            accumulator, _, address = value.partition(",")
            self.end = f"END CALL {CALLS[name]} {accumulator} {address}"
        elif slash:
            self.words[number_of(name, HALVES)] = word_of(value)
        else:
            raise NoRow

    def input(self):
        """Gives what `ka_run` reads of the state before the instruction."""
        flags = sum(FLAGS[it] for it in self.flags)
        return f"flags {flags:o}\npc {self.pc:o}\nsize 1\n" + "".join(f"{at:o} {word:o}\n" for at, word in self.words.items())


def number_of(text, limit):
    """Gives a number in octal."""
    if not re.fullmatch("[0-7]+", text) or int(text, 8) >= limit:
        raise NoRow
    return int(text, 8)


def word_of(text):
    """Gives a word in octal: two halves with `,,` between them, or one number, with `-` before it the negative one."""
    left, commas, right = text.partition(",,")
    if commas:
        return number_of(left, HALVES) << 18 | number_of(right, HALVES)
    return -number_of(text[1:], WORDS) % WORDS if text.startswith("-") else number_of(text, WORDS)


def ran(program, words, text):
    return subprocess.run([program, *words], input=text, capture_output=True, text=True, timeout=SECONDS, check=False).stdout


def states_of(row, lockmon):
    """Gives the state before the instruction of a row, and the one that it should leave."""
    parts = row.split("|")
    if len(parts) != 3:
        raise NoRow
    *image, start = ran(lockmon, ["asm"], f" {parts[0].strip()}\n END\n").splitlines() or [""]
    if not start.startswith("START "):
        raise NoRow
    before, after = State(), State(pc=FIRST + 1)
    for line in image:
        at, _, word = line.partition(" ")
        before.words[number_of(at, HALVES)] = word_of(word)
    for item in parts[1].split():
        before.take(item)
    after.words = dict(before.words)
    for item in parts[2].split():
        after.take(item)
    return before, after


def found_by(program, before):
    """Gives the state that `ka_run` leaves."""
    _, end, pc, flags, *listed = ran(program, ["1"], before.input()).splitlines()
    half = int(flags.removeprefix("FLAGS "), 8)
    found = State(pc=int(pc.removeprefix("PC "), 8), flags={name for name, bit in FLAGS.items() if half & bit}, end=end)
    if half != USER + sum(FLAGS[name] for name in found.flags):
        found.flags.add(flags)
    for line in listed:
        at, left, right = LISTED.fullmatch(line).groups()
        found.words[int(at, 8)] = int(left, 8) << 18 | int(right, 8)
    return found


def differences(wanted, found):
    """Gives what is not as it should be."""
    for at in sorted(wanted.words.keys() | found.words.keys()):
        words = [f"{it >> 18:06o},,{it % HALVES:06o}" for it in (wanted.words.get(at, 0), found.words.get(at, 0))]
        if words[0] != words[1]:
            yield f"{at:o}/ should be {words[0]} and is {words[1]}"
    if wanted.pc != found.pc:
        yield f"the PC should be {wanted.pc:o} and is {found.pc:o}"
    if wanted.flags != found.flags:
        yield f"the flags should be {sorted(wanted.flags)} and are {sorted(found.flags)}"
    if wanted.end != found.end:
        yield f"it should end with {wanted.end} and ends with {found.end}"


def fault_of(row, lockmon, ka_run):
    """Gives what is wrong with a row, if anything is."""
    try:
        before, wanted = states_of(row, lockmon)
        return "; ".join(differences(wanted, found_by(ka_run, before)))
    except NoRow:
        return "this is no row"
    except (ValueError, AttributeError, subprocess.TimeoutExpired) as fault:
        return f"ka_run gives no state: {fault}"


def faults(lockmon, ka_run, table):
    """Gives what is told of the rows of a table, of which there has to be one, and how many hold."""
    with open(table, encoding="utf-8") as lines:
        rows = [(number, row) for number, line in enumerate(lines, 1) if (row := line.partition(";")[0].strip())]
    with ThreadPoolExecutor(len(os.sched_getaffinity(0)) + 1) as pool:
        found = list(pool.map(lambda it: fault_of(it[1], lockmon, ka_run), rows))
    told = [f"{table}, line {number}: {fault}" for (number, _), fault in zip(rows, found) if fault]
    if not rows:
        told.append(f"{table}: there are no rows")
    return told, f"{found.count('')} rows hold"


def main(words):
    os.chdir(TOP)
    named = dict(word.partition("=")[::2] for word in words)
    builds = [named] if named else [{it: f"crates/{it}/out/{it}{build}" for it in PROGRAMS} for build in BUILDS]
    is_right = set(builds[0]) == {*PROGRAMS}
    for programs in builds if is_right else ():
        lockmon, ka_run = (os.path.abspath(programs[it]) for it in PROGRAMS)
        told, held = faults(lockmon, ka_run, TABLE)
        print(*told, f"{os.path.relpath(ka_run)}: {held}", sep="\n", file=sys.stderr)
        is_right = is_right and not told
    return 0 if is_right else 1


if __name__ == "__main__":
    sys.exit(main(sys.argv[1:]))
