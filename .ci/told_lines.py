#!/usr/bin/env python3
"""Makes lines of pieces of the grammars of `lockmon queue` and `lockmon run`, some with a character more, less or changed, and has
the program read them: of each line that it refuses it has to say what is wrong with it, and of the others nothing.
The argument lockmon=PATH names another program than the one that `rt ci` built."""
import os
import re
import subprocess
import sys
from concurrent.futures import ThreadPoolExecutor
from pathlib import Path

TOP = Path(__file__).resolve().parent.parent
LINES = 5000
"""So many lines of each language are made."""
ENOUGH = 900
"""At least so many of them are refused, and so many are not."""
TOGETHER = 250
"""So many lines are one script, up to the first that is refused; then comes a script of those behind it."""
SECONDS = 120
LONG = "A" * 129
"""A piece of which two make a line too long."""
CHARACTERS = [*" 01789AGSz.-_#/:,;\t\r\\", "\u00e9", "\x7f", "\0"]
"""What a character is changed for."""
QUEUE = (
    [
        *("ENQ * * * *", "ENQ 1 0 5 *", "ENQ 63 * 5 X/*", "ENQ 1 2 * A/*/*", "ENQ 1 0 0 A/S/G5/L2 *", "DEQ * * *", "DEQ 1 1"),
        *("DEQ 1 1 *", "DEQ 1 2 *", "DEQ 1 0 */*", "DEQ * 7 *", "STAT * *", "STAT 1 * *", "FREE *", "SHOW", "WAITS", "QUIT", "* *", "; *"),
    ],
    [
        *("0", "1", "2", "3", "7", "01", "63", "64", "063", "511", "512", "262143", "262144", "0262143", "X", "A.B-C_D", "#1", "#8", "#"),
        *("#77777777777", "#00000000001", "#077777777777", "#100000000000", "S", "B", "J", "G", "G5", "G262143", "G262144", "L", "L0", "L511"),
        *("L512", "P5:1", "P262143:262143", "P262144:1", "P1:262144", "P1:", "P:1", "P1", "X/S", "X/B/J", "", " ", "SHOW", LONG),
    ],
)
RUN = (
    [
        *("ASSEMBLE *", "LOGIN * *", "LOGIN 0 *", "STEP *", "RUN *", "TICK *", "TYPE * *", "TYPE 0 **", "TYPE 0 A*B*", "TAKE *", "START *"),
        *("CONTINUE *", "KILL *", "RESTART", "SHOW *", "EXAMINE * *", "EXAMINE 1 *", "DATA *", "QUIT", "ENDASM", "* *", "; *", "TYPE * ; *"),
    ],
    [
        *("0", "1", "7", "8", "01", "63", "64", "255", "256", "0255", "1023", "1024", "777777", "1000000", "1000001", "A", "a1", "9Z"),
        *("ABCDEF", "ABCDEFG", "JOBS", "LOCKS", "WAITS", "ALL", "\\n", "\\r", "\\e", "\\\\", "\\", "\\t", "\\101", "\\177", "\\200", "\\18"),
        *("\\1", "HELLO WORLD", " ", "", "X;Y", LONG),
    ],
)
"""The forms of the lines of each language, in which `*` stands for a piece, and its pieces."""
LANGUAGES = {"queue": QUEUE, "run": RUN}
TOLD = re.compile(rb"lockmon: line (\d+): (.*)\n", re.DOTALL)


class Numbers:
    """Numbers in no order that a person sees, the same in each run."""

    def __init__(self, seed):
        self.last = seed

    def below(self, bound):
        self.last = (self.last * 6364136223846793005 + 1442695040888963407) % 2**64
        return (self.last >> 33) % bound

    def one_of(self, texts):
        return texts[self.below(len(texts))]


def line_of(forms, pieces, numbers):
    """A line in one of the forms, with up to two changes: a character left out, put in or changed, or a piece put in."""
    line = re.sub(r"\*", lambda _: numbers.one_of(pieces), numbers.one_of(forms)).encode()
    for _ in range(numbers.below(3)):
        at, way = numbers.below(len(line) + 1), numbers.below(4)
        new = "" if way == 0 else numbers.one_of(pieces if way == 3 else CHARACTERS)
        line = line[:at] + new.encode() + line[at + (way % 2 == 0) :]
    return line


def script_of(lines):
    """The lines of a script of these, in which a source has an end, and for each the one that it belongs to."""
    script, owners = [], []
    for number, line in enumerate(lines):
        own = [line, b" END", b"ENDASM"] if line.startswith(b"ASSEMBLE ") else [line]
        script += own
        owners += [number] * len(own)
    return script, owners


def refused_first(program, language, lines):
    """The position of the first line that is refused, and what is wrong with what is told of it, or with the run."""
    script, owners = script_of(lines)
    ran = subprocess.run([program, language], input=b"".join(it + b"\n" for it in script), capture_output=True, timeout=SECONDS, check=False)
    if ran.returncode == 0 and not ran.stderr:
        return None, None
    told = TOLD.match(ran.stderr)
    if ran.returncode != 1 or told is None or not 1 <= int(told[1]) <= len(script):
        return len(lines), f"{lines[:1]}: status {ran.returncode}, {ran.stderr}"
    at = owners[int(told[1]) - 1]
    return at, f"{lines[at]}: no reason is told" if told[2].startswith(b"not a line of") else None


def faults(program, language, lines):
    """How many of these lines are refused, and what is wrong."""
    refused, wrong = 0, []
    while lines:
        at, fault = refused_first(program, language, lines)
        wrong += [fault] if fault else []
        if at is None:
            break
        refused += 1
        lines = lines[at + 1 :]
    return refused, wrong


def parts_of(lines):
    """The lines in parts, which QUIT ends."""
    part = []
    for line in lines:
        part.append(line)
        if len(part) == TOGETHER or line.rstrip(b"\r") == b"QUIT":
            yield part
            part = []
    if part:
        yield part


def main(words):
    named = dict(word.partition("=")[::2] for word in words)
    program = os.path.abspath(named.get("lockmon", TOP / "crates/lockmon/out/lockmon"))
    wrong = []
    with ThreadPoolExecutor(os.cpu_count()) as pool:
        for language, (forms, pieces) in LANGUAGES.items():
            numbers = Numbers(19_700_101)
            lines = [it for it in (line_of(forms, pieces, numbers) for _ in range(LINES)) if b"\n" not in it]
            found = list(pool.map(lambda part, own=language: faults(program, own, part), parts_of(lines)))
            refused = sum(count for count, _ in found)
            wrong += [f"{language}: {it}" for _, own in found for it in own]
            if not ENOUGH <= refused <= len(lines) - ENOUGH:
                wrong.append(f"{language}: {refused} of {len(lines)} lines are refused")
            print(f"told lines: {language}: {refused} of {len(lines)} lines are refused", file=sys.stderr)
    print(*wrong, f"told lines: {len(wrong)} faults", sep="\n", file=sys.stderr)
    return 1 if wrong else 0


if __name__ == "__main__":
    sys.exit(main(sys.argv[1:]))
