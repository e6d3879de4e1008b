#!/usr/bin/env python3
"""Runs `macro` on sources that no file of runs has, and `lockmon asm` on what it writes.

- Each source of tests/assembler that `lockmon asm` takes: `macro` takes it too, and what it writes has the same image. Where
  a listing is wanted, for which its own assembler reads the source, it writes the same.
- What `macro` writes of the sources of tests/macro and examples/: `lockmon asm` takes it, and `macro` writes it again as it
  stands, also where a listing is wanted.
  Each ends with the status of its run; the examples of which `macro` makes words, and a source of 100,000 lines, with 0.
- The lines of OLD_LINES, which people typed from sources of the time, each behind a head: those with `+` are taken, and mean the same
  with ALL, those with `o` are taken with ALL alone, each with a warning, and those with `-` are told.
- Those sources with random bytes in them, put in, taken out and doubled: `macro` ends with a source or with errors, and
  what it writes is taken.
- Sources made by chance, with macros, conditions, literals and repetitions (made_sources.py): `macro` ends with a source or with
  errors. So its second reader finds nothing else in any of them than was assembled, which would be status 3.

The programs are those that `rt ci` built, or those that words NAME=PATH say. What does not hold is told, and the last line
counts what does."""
import os
import random
import re
import subprocess
import sys
from concurrent.futures import ThreadPoolExecutor
from pathlib import Path
from tempfile import TemporaryDirectory

sys.dont_write_bytecode = True
import crates
import made_sources
import stored_runs
import written

TOP = Path(__file__).resolve().parent.parent
SECONDS = 120
LINES = 100_000
CHANGED = 2_000
"""So many sources have random bytes."""
MADE = 10_000
"""So many sources are made by chance."""
PIECES = [*b"<>[](),:;=#'\"\\%.*/&!_^@+-\t\n\r \0\x7f\xff", *b"0189ABN"]
OLD_LINES = TOP / "tests" / "macro" / "old_lines.txt"
ALL = "--all-operations"
OLD_HEAD = b"\tSEARCH\tUUOSYM,MACTEN,JOBDAT\nA=1\nB=2\nCH=3\nT1=4\nFOO:\nTAB:\nSTART:\n"
WARNING = re.compile(rb"%MACRO [0-9]+:[0-9]+ [^\n]+ is not here: [^\n]+\n")
SOURCE = re.compile(rb"(?:[^?\n][^\n]*\n)* END [0-7]+\n")
ERRORS = re.compile(rb"(?:\?MACRO [0-9]+:[0-9]+ [A-Z-] [^\n]+\n(?: in [^\n]+ line [0-9]+\n)*(?: and [0-9]+ more\n)?)+(?:and [0-9]+ more errors\n)?")


# The first line of an example of which `macro` makes words.
ASSEMBLED = re.compile(rb"; macro \S+ > words\.mac:")

# In the one source of tests/assembler with this line the place goes far above all addresses and comes back. MACRO-10 keeps no
# place that is so far away, so that there is no listing.
FAR_AWAY = b"LOC .-^D10000000000000000000000000000000000000000+140"
NOT_LISTED = 3, b""


class Programs:
    """The two programs, and what they make of a source. Listings go to a file of the folder."""

    def __init__(self, named, folder):
        self.paths = {}
        self.listed = ["--list", f"{folder}/words.lst"]
        for name in ("macro", "lockmon"):
            crate = crates.crate_of(name)
            self.paths[name] = os.path.abspath(named.get(name, TOP / "crates" / crate / "out" / crate))

    def ran(self, name, words, source):
        return subprocess.run([self.paths[name], *words], input=source, capture_output=True, timeout=SECONDS, check=False)

    def run(self, name, words, source):
        ran = self.ran(name, words, source)
        return ran.returncode, ran.stdout

    def image(self, source):
        """Gives the image of a source, if `lockmon asm` takes it."""
        status, output = self.run("lockmon", ["asm"], source)
        return output if status == 0 else None

    def fault(self, source, wanted=None):
        """Gives what is wrong with what `macro` writes of a source, if anything is. Its status is `wanted`, if that is known."""
        status, output = self.run("macro", [], source)
        if wanted not in (None, status):
            return f"status {status}, and not {wanted}: {output[:200]}"
        if status == 1:
            return None if ERRORS.fullmatch(output) else f"these are no errors: {output[:200]}"
        if status != 0 or not SOURCE.fullmatch(output):
            return f"status {status} and no source: {output[:200]}"
        if self.image(output) is None:
            return "`lockmon asm` does not take what is written"
        again = [self.run("macro", words, output) for words in ([], self.listed)]
        return None if again == [(0, output)] * 2 else "what is written is written otherwise"

    def unread(self, source):
        """Gives what is wrong with how `macro` ends for a source, if anything is."""
        status, output = self.run("macro", [], source)
        form = {0: SOURCE, 1: ERRORS}.get(status)
        return None if form and form.fullmatch(output) else f"status {status}: {output[:200]}\n{source.decode()}"

    def untold(self, marked):
        """Gives what is wrong with a marked line of OLD_LINES, if anything is."""
        mark, line = marked[:1], marked[2:].replace(b"\\n", b"\n")
        source = OLD_HEAD + line + b"\n\tEND\n"
        status, output = self.run("macro", [], source)
        wanted = self.ran("macro", [ALL], source)
        if mark == b"+":
            is_same = (wanted.returncode, wanted.stdout, wanted.stderr) == (0, output, b"")
            return f"status {status}: {output[:200]}" if status else None if is_same else f"{ALL}: {wanted}"
        if status == 0 or not ERRORS.fullmatch(output):
            return "it is taken" if status == 0 else f"status {status}: {output[:200]}"
        if mark == b"o":
            warns = WARNING.match(wanted.stderr) and self.image(wanted.stdout)
            return None if wanted.returncode == 0 and warns else f"{ALL}: {wanted}"
        return None if mark == b"-" and wanted.returncode == 1 and ERRORS.fullmatch(wanted.stdout) else f"{ALL}: {wanted}"

    def other_image(self, source):
        """Gives what is wrong with a source of the subset, if anything is."""
        image = self.image(source)
        if image is None:
            return None
        status, output = self.run("macro", [], source)
        if status != 0 or self.image(output) != image:
            return f"another image, status {status}: {output[:200]}"
        listed = self.run("macro", self.listed, source)
        return None if listed == (NOT_LISTED if FAR_AWAY in source else (0, output)) else f"listed otherwise: {listed}"


def subset():
    """Gives the sources of tests/assembler with their places."""
    for case in written.cases_of_folder(TOP / "tests" / "assembler"):
        yield case.place, case.script


def dialect():
    """Gives the sources of tests/macro and examples/ with their places and the status that they end with, if their run or their
    first line says it. Those that have to reach a limit are left out."""
    for file in sorted((TOP / "tests" / "macro").glob("*.runs")):
        for run in stored_runs.runs_of(file) if file.stem != "limits" else ():
            if run.texts[">"]:
                yield f"{file.name}:{run.line}", run.texts[">"], run.status if run.command == "macro" else None
    for file in sorted((TOP / "examples").glob("*.mac")):
        source = file.read_bytes()
        yield file.name, source, 0 if ASSEMBLED.match(source) else None


def long():
    """Gives a source of many lines, with a label, a literal, a call or a condition in each."""
    kinds = ("L{0:05}:\tMOVE 1,[{0}.]", "\tTWO {0}.,FIRST", "IFN {0}.&1,<\tEXP .>", "A=A+{0}.", "\tJRST FIRST+{0}. ;{0}")
    lines = ["A=0", "DEFINE TWO(X,Y)<\tEXP X,Y>", "FIRST:\t0"]
    lines += [kinds[number % len(kinds)].format(number) for number in range(LINES - len(lines) - 1)]
    return "\n".join([*lines, "\tEND FIRST", ""]).encode()


def changed(sources):
    """Gives sources with random bytes in them. They are the same in each run."""
    chance = random.Random(10)
    for number in range(CHANGED):
        place, source, _ = chance.choice(sources)
        text = bytearray(source)
        for _ in range(chance.randint(1, 5)):
            at = chance.randint(0, len(text))
            end = min(len(text), at + chance.randint(0, 4))
            text[at:end] = chance.choice([b"", bytes([chance.choice(PIECES)]), bytes(text[at:end]) * 2])
        yield f"{place}, change {number}", bytes(text)


def made():
    """Gives sources that are made by chance. They are the same in each run."""
    for number in range(MADE):
        yield f"made source {number}", made_sources.Maker(random.Random(number)).source().encode()


def main(words):
    with TemporaryDirectory() as folder:
        return compare(Programs(dict(word.partition("=")[::2] for word in words), folder))


def compare(programs):
    """Asks for all sources whether what the programs make of them holds: 0 if it does, and else 1."""
    sources = list(dialect())
    asked = [(place, programs.other_image, (source,)) for place, source in subset()]
    lines = OLD_LINES.read_bytes().splitlines()
    asked += [(f"{OLD_LINES.name}:{number}", programs.untold, (line,)) for number, line in enumerate(lines, 1)]
    taken, others = (sum(line.startswith(mark) for line in lines) for mark in (b"+", b"o"))
    print(f"old lines: {taken} of {len(lines)} are taken, and {others} more with {ALL}", file=sys.stderr)
    asked += [(place, programs.fault, words) for place, *words in [*sources, ("100,000 lines", long(), 0), *changed(sources)]]
    asked += [(place, programs.unread, (source,)) for place, source in made()]
    with ThreadPoolExecutor(len(os.sched_getaffinity(0)) + 1) as pool:
        found = list(pool.map(lambda it: it[1](*it[2]), asked))
    wrong = [f"{place}: {fault}" for (place, _, _), fault in zip(asked, found) if fault]
    print(*wrong, f"sources of macro: {len(asked) - len(wrong)} of {len(asked)} hold", sep="\n", file=sys.stderr)
    return 1 if wrong else 0


if __name__ == "__main__":
    sys.exit(main(sys.argv[1:]))
