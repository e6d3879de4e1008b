#!/usr/bin/env python3
"""Tells what is proved again after a change of a crate, and what that costs.

.ci/above.py CRATE    the crate and those above it, in the order in which they can be proved, with their minutes

If no clause, type or definition changes that the crates above cite, only the crate itself is checked again by `rt check`;
`rt ci` proves all of these. The minutes are those of the table in docs/MAINTAINING.md."""

import re
import sys

sys.dont_write_bytecode = True
import crates
import minutes

ROW = re.compile(r"^\| `(\w+)` \| ([\d.]*) \| ([\d.]*) \| ([\d.]*) \|", re.MULTILINE)


def main(words):
    if len(words) != 1 or words[0] not in crates.libraries():
        print(__doc__, file=sys.stderr)
        return 2
    took = {crate: [float(it or 0) for it in row] for crate, *row in ROW.findall(crates.text_of(minutes.PAGE))}
    above = [it for it in crates.libraries() if it == words[0] or words[0] in crates.below(it)]
    above.sort(key=lambda it: len(crates.below(it)))
    for it in above:
        print(f"{it:20}{sum(took.get(it, [0])):6.1f}")
    print(f"{len(above)} crates, {sum(sum(took.get(it, [0])) for it in above):.0f} minutes of a processor")
    return 0


if __name__ == "__main__":
    sys.exit(main(sys.argv[1:]))
