#!/usr/bin/env python3
"""Counts turns of phrase that make a page hard to read, in the pages, the help texts and the comments of the sources, and
compares with the limits in `.ci/words.limits`. A file that has more than its limit is told, and so is one that has fewer, so
that the limits only fall.

.ci/words.py            compares
.ci/words.py --write    lowers the limits to what is there now; no limit rises
.ci/words.py --show WORD    shows each line that has a turn, by its name in the table below

A turn is counted because it is often the second-best one, not because it is always wrong: "where" is right of a place."""

import os
import re
import sys

sys.dont_write_bytecode = True
import crates

LIMITS = f"{crates.TOP}/.ci/words.limits"

# Each turn, with what it mostly stands for.
TURNS = {
    "where": (r"\b[Ww]here\b", "if, when"),
    "behind": (r"\bbehind\b", "after, at higher addresses"),
    "in front of": (r"\bin front of\b", "before"),
    "stands": (r"\bst(?:and|ands|ood)\b", "is, has"),
    "told": (r"\btold\b", "notified, reported"),
    "comes to": (r"\bcomes? to\b", "is, gives"),
    "want of memory": (r"\b(?:want|lack) of memory\b", "if memory runs out"),
    "so many": (r"\bso many\b", "n"),
    "that of the": (r"\b(?:that|those) of the\b", "the thing again"),
    "alone": (r"\balone[.,;:]", "only, before what it limits"),
    "what is": (r"(?:^|[.] )What (?:is|has|was|it|does)\b", "a noun"),
}


def texts():
    """Gives each file that is counted, with its text that people read."""
    for at, folders, files in os.walk(crates.TOP):
        folders[:] = sorted(it for it in folders if it not in (".git", "out", "proofs", "must-fail", "must-fail-recorded", "data"))
        for it in sorted(files):
            path = os.path.join(at, it)
            name = os.path.relpath(path, crates.TOP)
            if it.endswith(".md") or name.startswith("contrib/help/"):
                yield name, prose_of(crates.text_of(path))
            elif name.startswith("crates/") and it.endswith((".rt", ".antt")):
                yield name, "\n".join(found for found in re.findall(r"(?://[/!]?|--) ?(.*)", crates.text_of(path)))


def prose_of(text):
    """Gives a page without its blocks of code, what it quotes as code, and the rows of an index that have a program's words."""
    for code in (r"^```(?:.|\n)*?^```", r"^    .*$", r"^\|.*\| refused \|.*$", r"`[^`\n]*`"):
        text = re.sub(code, "", text, flags=re.MULTILINE)
    return text


def group_of(name):
    """Gives what a file counts for: itself, if it is a page; the crate, if it is one of its sources."""
    parts = name.split("/")
    return "/".join(parts[:2]) if parts[0] == "crates" else name


def counted():
    """Gives how often each page, help text and crate has each turn."""
    found = {}
    for name, text in texts():
        row = found.setdefault(group_of(name), dict.fromkeys(TURNS, 0))
        for turn, (pattern, _) in TURNS.items():
            row[turn] += len(re.findall(pattern, text, re.MULTILINE))
    return found


def limits():
    """Gives the limits that are on record."""
    found = {}
    if os.path.exists(LIMITS):
        for line in crates.text_of(LIMITS).splitlines():
            if line and not line.startswith("#"):
                name, _, row = line.partition(": ")
                found[name] = {turn: int(number) for turn, number in re.findall(r"([a-z ]+?) (\d+)(?:, |$)", row)}
    return found


def write(found, known):
    """Puts the counts on record, as far as they are below the limits that are there."""
    lines = ["# How often a page, a help text or a crate's comments have a turn of phrase, at most. `.ci/words.py --write` lowers these."]
    for name, row in sorted(found.items()):
        least = {turn: min(number, known.get(name, {}).get(turn, number if name not in known else 0)) for turn, number in row.items()}
        if any(least.values()):
            lines.append(f"{name}: " + ", ".join(f"{turn} {number}" for turn, number in least.items() if number))
    with open(LIMITS, "w", encoding="utf-8") as to:
        to.write("\n".join(lines) + "\n")


def compare(found, known):
    """Tells each file that has more of a turn than its limit, or less; gives whether there is none."""
    wrong = []
    for name in sorted({*found, *known}):
        row, limit = found.get(name, {}), known.get(name, {})
        for turn, (_, instead) in TURNS.items():
            here, most = row.get(turn, 0), limit.get(turn, 0)
            if here > most:
                wrong.append(f'{name} has "{turn}" {here} times, and {most} is its limit; mostly it stands for: {instead}')
            elif here < most:
                wrong.append(f'{name} has "{turn}" {here} times, fewer than its limit of {most}: lower it by .ci/words.py --write')
    print(*wrong, sep="\n", end="\n" if wrong else "")
    total = {turn: sum(row[turn] for row in found.values()) for turn in TURNS}
    print("words: " + ", ".join(f'"{turn}" {number}' for turn, number in total.items()))
    return not wrong


def show(turn):
    for name, text in texts():
        for line in text.splitlines():
            if re.search(TURNS[turn][0], line):
                print(f"{name}: {line.strip()}")


def main(words):
    if words[:1] == ["--show"] and len(words) == 2 and words[1] in TURNS:
        show(words[1])
        return 0
    found, known = counted(), limits()
    if words == ["--write"]:
        write(found, known)
        return 0
    if words:
        print(__doc__, file=sys.stderr)
        return 2
    return 0 if compare(found, known) else 1


if __name__ == "__main__":
    sys.exit(main(sys.argv[1:]))
