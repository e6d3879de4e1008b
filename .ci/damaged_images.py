#!/usr/bin/env python3
"""Damages examples/digits.sav at each of its bytes, and cuts it off at each, and has `image list` read what comes of it, and
files of random bytes in each form. A run has to end with status 0 and an image, or with status 1, a line that names what is
wrong and the word where it is, and one that says which packing fits, or which there are; of octal also how a word looks.
The argument is the program; without it the one that `rt ci` built."""
import os
import random
import re
import subprocess
import sys
from concurrent.futures import ThreadPoolExecutor
from pathlib import Path

TOP = Path(__file__).resolve().parent.parent
IMAGE = re.compile(rb"(?:[0-7]{6} [0-7]{6},,[0-7]{6}(?: ; (?:call|operation) not here(?:: [A-Z.]+)?)?\n)*START [0-7]{6}\n")
REFUSAL = re.compile(rb"\?(?:WORD|SAVE) [1-9][0-9]* [A-Z]+\n")
REASON = re.compile(rb"image: word [1-9][0-9]*: .+\n    (?:it can be read by --from [a-z]+|--from says how .+)\n(?:    a word in octal is a line as .+\n)?")
DAMAGES = (0x01, 0x08, 0x10, 0x80, 0xFF)
"""The bits that are turned over, each in turn."""
FORMS = ("core", "dense", "ascii", "simh", "octal")
RANDOM = 40
"""So many files of random bytes for each form, with up to 7 words."""


def damaged(whole):
    """The files that come of a file, each with what was done to it and the form that it is read in."""
    for at in range(len(whole)):
        yield f"cut off at byte {at}", "core", whole[:at]
        for bits in DAMAGES:
            turned = whole[:at] + bytes([whole[at] ^ bits]) + whole[at + 1 :]
            yield f"byte {at} with the bits {bits:02x} turned over", "core", turned


def at_random():
    """Files of random bytes, half of them such as texts have, each with its number and form."""
    draw = random.Random(1)
    for form in FORMS:
        for number in range(RANDOM):
            most = 127 if number % 2 else 255
            file = bytes(draw.randint(0, most) for _ in range(draw.randrange(57)))
            yield f"random file {number} as {form}", form, file


def is_well(program, form, file):
    """Whether the program says of a file that it is an image, or what is wrong with it."""
    run = subprocess.run([program, "list", "--from", form], input=file, capture_output=True, timeout=120, check=False)
    if run.returncode == 0:
        return IMAGE.fullmatch(run.stdout) and not run.stderr
    return run.returncode == 1 and REFUSAL.fullmatch(run.stdout) and REASON.fullmatch(run.stderr)


def main(words):
    program = os.path.realpath(words[0]) if words else TOP / "crates/image/out/image"
    files = [*damaged((TOP / "examples/digits.sav").read_bytes()), *at_random()]
    with ThreadPoolExecutor(os.cpu_count()) as pool:
        well = list(pool.map(lambda it: is_well(program, it[1], it[2]), files))
    wrong = [name for (name, _, _), holds in zip(files, well) if not holds]
    for name in wrong:
        print(f"damaged images: {name}: neither an image nor a refusal", file=sys.stderr)
    print(f"damaged images: {len(files) - len(wrong)} of {len(files)} are told right", file=sys.stderr)
    return 1 if wrong else 0


if __name__ == "__main__":
    sys.exit(main(sys.argv[1:]))
