#!/usr/bin/env python3
"""Looks whether each link of the pages leads somewhere: to a file that is there, and to a heading of that page."""

import os
import re
import sys

sys.dont_write_bytecode = True
import crates

LINK = re.compile(r"\[[^\]\n]*\]\(([^)\s]+)\)")
HEADING = re.compile(r"^#{1,6} +(.*?) *$", re.MULTILINE)


def without_code(text):
    """Gives a page without its blocks of code."""
    return re.sub(r"^```(?:.|\n)*?^```|^    .*$", "", text, flags=re.MULTILINE)


def anchors_of(text):
    """Gives the names by which the headings of a page are linked: small letters, digits, `-` and `_`, and a blank as `-`. A
    heading that stands there again gets a number."""
    found = {}
    for heading in HEADING.findall(without_code(text)):
        heading = re.sub(r"\[([^\]]*)\]\([^)]*\)", r"\1", heading)
        name = re.sub(r"[^\w\- ]", "", heading.lower()).replace(" ", "-")
        found[name] = found.get(name, -1) + 1
        if found[name]:
            found[f"{name}-{found[name]}"] = 0
    return set(found)


def pages():
    for at, folders, files in os.walk(crates.TOP):
        folders[:] = sorted(it for it in folders if it not in (".git", "out"))
        yield from (os.path.join(at, it) for it in sorted(files) if it.endswith(".md"))


def main():
    anchors = {page: anchors_of(crates.text_of(page)) for page in pages()}
    count, wrong = 0, []
    for page in anchors:
        for target in LINK.findall(without_code(crates.text_of(page))):
            if target.startswith(("http:", "https:", "mailto:")):
                continue
            count += 1
            path, _, anchor = target.partition("#")
            to = os.path.normpath(os.path.join(os.path.dirname(page), path)) if path else page
            if not os.path.exists(to):
                wrong.append(f"{os.path.relpath(page, crates.TOP)}: {target}: no such file")
            elif anchor and anchor not in anchors.get(to, ()):
                wrong.append(f"{os.path.relpath(page, crates.TOP)}: {target}: no such heading")
    print(*wrong, sep="\n", end="\n" if wrong else "")
    print(f"links: {count - len(wrong)} of {count} links lead somewhere")
    return 1 if wrong else 0


if __name__ == "__main__":
    sys.exit(main())
