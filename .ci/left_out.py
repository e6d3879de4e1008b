#!/usr/bin/env python3
"""Compares two tables of the pages with the program's own: in docs/MACHINE.md, "What is left out", the names that are not here and
what is said of them (crates/left_out); in docs/MACRO.md, "Index", each name that an assembler knows or refuses (ka_isa,
macro_operations, left_out) or that SEARCH defines (search_files), and that each operator is among the signs. Each name that has a word
by the manuals (left_out) is one that is left out, and none that an assembler knows. `--write` writes the tables of names anew."""
import re
import sys
from pathlib import Path

TOP = Path(__file__).resolve().parent.parent
CRATES = TOP / "crates"
STRING = r'"((?:[^"\\]|\\.)*)"'

NAMES_HEAD = "| Names | What is said of them |\n|---|---|\n"
INDEX_HEAD = "| Name | Here | Why not, or what to write instead |\n|---|---|---|\n"
SIGNS_HEAD = "| Sign | Here | Means, or what to write instead |\n|---|---|---|\n"

# Where docs/MACRO.md has the statements, by what the program takes them for.
SECTIONS = {
    "words": ("Xwd", "Iowd", "Exp", "Point"),
    "texts": ("Text",),
    "what-gives-no-words": ("Loc", "End", "Radix", "Block", "Search"),
    "texts-in-brackets": ("Define", "Repeat", "Irp", "Stopi", "If", "IfDefined", "IfSame", "IfBlank", "IfPass"),
    "literals-and-variables": ("Lit", "Var"),
    "listing": ("List", "Xlist", "Lall", "Sall", "Xall"),
}
IGNORED = ("Title", "Remark", "Quiet")
# Statements whose kind `macro` refuses, and which it takes nevertheless (macro_reading/src/searches.rt).
TAKEN = {
    "EXTERN": "[statement](#statements-of-macro) of `macro`",
    ".REQUEST": "ignored by `macro`",
    ".TEXT": "ignored by `macro`",
    "TWOSEG": "[statement](#two-segments) of `macro`",
    "HISEG": "[statement](#two-segments) of `macro`",
}
# In these sections each statement has the same words as this one.
LIKE = {"texts-in-brackets": "DEFINE", "listing": "LIST"}
REFUSED = {"Extern": "Linking", "Segments": "Segments", "Universal": "Universal"}

# The page's own words on what `lockmon asm` takes in the place of a statement of `macro`.
INSTEAD = "### What of MACRO-10 is not here\n"


def source(path):
    return (CRATES / path).read_text()


def plain(text):
    """Gives what a string of the program spells."""
    return re.sub(r"\\(.)", r"\1", text)


def table(path, name):
    """Gives the text of a table of the program."""
    text = source(path)
    start = text.index(f"{name}: [")
    return text[text.index("= [", start) : text.index("\n];\n", start)]


# ---- what is left out


def rows():
    """Gives the rows of the program's table: names, and what is said of them."""
    words = dict(re.findall(r"Reason::(\w+) =>\s*(?:\{\s*)?" + STRING, source("left_out/src/reasons.rt")))
    for names, reason in re.findall(r"&\[(.*?)\],\s*Reason::(\w+)", table("left_out/src/tables.rt", "LEFT_OUT"), re.DOTALL):
        yield re.findall(STRING, names), plain(words[reason])


def names_table():
    """Gives the table of MACHINE.md. A row whose names SEARCH defines says that too."""
    defined = dict(universal())
    here = "; after SEARCH [`macro` has it](MACRO.md#what-search-defines)"
    return [(" ".join(f"`{it}`" for it in names), words + here * (set(names) <= set(defined))) for names, words in rows()]


def worded():
    """Gives the names that have a word by the manuals: `macro --all-operations` takes them, and `image list` has some."""
    for name in ("OPERATIONS", "CALLS", "TERMINAL_CALLS", "OTHERS"):
        yield from re.findall(STRING, table("left_out/src/words.rt", name))


# ---- the index


def instead():
    """Gives what MACRO.md says of statements that `lockmon asm` lacks: by each name that a row begins a piece with."""
    page = (TOP / "docs/MACRO.md").read_text()
    found = {}
    for names, words in re.findall(r"^\| (.*?) \| (.*?) \|$", page[page.index(INSTEAD) :].split("\n## ")[0], re.MULTILINE):
        found |= {it: words for it in re.findall(r"`([A-Z.][A-Z0-9]+)(?: [^`]*)?`", names)}
    return found


def statements(name):
    """Gives the names of a table of statements, each with what it is."""
    return re.findall(r'\("([^"]+)", Pseudo::(\w+)', table("macro_operations/src/tables.rt", name))


def refusals():
    """Gives the program's words for the statements that `macro` refuses."""
    said = re.findall(r"Fault::(\w+)\(name(?:, _)?\) => Some\(\(name, \": (.*?)\"\)\)", source("macro_faults/src/words.rt"))
    return dict(said)


def section_of(kind):
    """Gives the section of the page that has a statement."""
    return next((it for it, kinds in SECTIONS.items() if kind in kinds), "statements-of-macro")


def statement_row(name, kind, others):
    """Gives what the index says of a statement: of one that `lockmon asm` lacks with what to write there."""
    section = section_of(kind)
    note = others and (others.get(name) or others.get(LIKE.get(section, "PAGE" if kind in IGNORED else ""), ""))
    if name in TAKEN:
        return TAKEN[name], f"in `lockmon asm`: {note}" if note else ""
    if kind in REFUSED:
        return "refused", refusals()[REFUSED[kind]]
    of = "`macro`" if others else "both"
    here = f"ignored by {of}" if kind in IGNORED else f"[statement](#{section}) of {of}"
    return here, f"in `lockmon asm`: {note}" if note else ""


def operation_of(word):
    """Gives the operation of the subset that has a word, with its AC field where that belongs to it."""
    names = re.findall(STRING, table("ka_isa/src/names.rt", "NAMES"))
    codes = [int(it, 8) for it in re.findall(r"0o(\d+)", table("ka_isa/src/names.rt", "CODES"))]
    name, ac = dict(zip(codes, names)).get(word >> 27), word >> 23 & 0o17
    return f"`{name} {ac:o},`" if name and ac else f"`{name}`" if name else "a word"


def searched(kind, after, instead):
    """Gives what the index says of a name that SEARCH defines: what it is after SEARCH, and what is written in the subset."""
    return f"[{kind}](#what-search-defines) of `macro`", f"after {after}, refused without it; in `lockmon asm`: {instead}"


def universal():
    """Gives each name that SEARCH defines, but for those that only its own macros use, and what the index says of it."""
    text = source("macro_operations/src/tables.rt")
    for name in re.findall(r'b"([^"]+)"', text[text.index("fn of_uuosym") :]):
        yield name, searched("number", "`SEARCH UUOSYM`", "the number")
    for name in re.findall(r'\("([^"]+)", 0o\d+\)', table("search_files/src/numbers.rt", "NUMBERS")):
        yield name, searched("number", "`SEARCH UUOSYM`", "the number")
    for name in re.findall(r'\("([^"]+)", 0o\d+\)', table("search_files/src/numbers.rt", "JOB_WORDS")):
        yield name, searched("number", "`SEARCH JOBDAT` or `EXTERN`", "the number")
    for name, lines in re.findall(r'\(\s*' + STRING + r',\s*' + STRING, table("search_files/src/macros.rt", "MACROS")):
        if ".." not in name and name not in TAKEN:
            operation = re.fullmatch(r"OPDEF \S+ \[(\w+)\]", lines)
            kind, instead = ("operation", f"`{operation[1]}`") if operation else ("macro", "what it makes")
            yield name, searched(kind, "`SEARCH UUOSYM`", instead)


def index():
    """Gives each name with what it is here, and what to write instead."""
    yield from ((it, ("[operation](MACHINE.md#operations)", "")) for it in re.findall(STRING, table("ka_isa/src/names.rt", "NAMES")))
    for name, kind in re.findall(r'\("([^"]+)", Call::(\w+)', table("ka_isa/src/calls.rt", "CALLS")):
        kinds = {"Jump": "[operation](MACHINE.md#named-calls)", "Terminal": "[terminal call](MACHINE.md#terminal)"}
        yield name, (kinds.get(kind, "[monitor call](MACHINE.md#calls-of-the-monitor)"), "")
    yield from ((name, statement_row(name, kind, {})) for name, kind in statements("SUBSET"))
    others = instead()
    yield from ((name, statement_row(name, kind, others)) for name, kind in statements("DIALECT"))
    for name, word in re.findall(r'\("([^"]+)", 0o(\d+)\)', table("macro_operations/src/tables.rt", "OPERATIONS")):
        yield name, ("[operation](#statements-of-macro) of `macro`", f"in `lockmon asm`: {operation_of(int(word, 8))}")
    defined = dict(universal())
    yield from defined.items()
    words_of = set(worded())
    refused = {False: "refused", True: "refused, and [taken](#operations-that-are-not-here) with `--all-operations`"}
    yield from ((it, (refused[it in words_of], words)) for names, words in rows() for it in names if it not in defined)


def index_table():
    """Gives the index, with names that follow one another in one row where the same is said of them."""
    found = []
    for name, said in sorted(index()):
        if found and found[-1][1] == said:
            found[-1][0].append(name)
        else:
            found.append(([name], said))
    return [(" ".join(f"`{it}`" for it in names), *said) for names, said in found]


def operators():
    """Gives the operators that the program reads between two values."""
    text = source("macro_operands/src/operators.rt")
    found = re.findall(r"Some\(b'(.)'\)(?: if state\.second\(\) == Some\(b'(.)'\))? => Some\(Infix", text)
    return [f"{one}{other}" for one, other in found]


# ---- the pages


def part_of(page, head):
    """Gives where a table of a page begins and ends."""
    start = page.index(head)
    return start, re.compile(r"^(?!\|)", re.MULTILINE).search(page, start).start()


def compared(name, head, lines, writes):
    """Whether a page has this table; it has afterwards, if it is to be written."""
    path = TOP / "docs" / name
    page = path.read_text()
    start, end = part_of(page, head)
    text = head + "".join(f"| {' | '.join(it)} |\n".replace("|  |", "| |") for it in lines)
    if page[start:end] != text and writes:
        path.write_text(page[:start] + text + page[end:])
        return True
    return page[start:end] == text


def main():
    writes = "--write" in sys.argv[1:]
    tables = (("MACHINE.md", NAMES_HEAD, names_table()), ("MACRO.md", INDEX_HEAD, index_table()))
    wrong = [name for name, head, lines in tables if not compared(name, head, lines, writes)]
    if wrong:
        print(f"left_out: docs/{' and docs/'.join(wrong)} has another table than the program; .ci/left_out.py --write", file=sys.stderr)
        return 1
    left_out = {name for names, _ in rows() for name in names}
    known = {name for name, (here, _) in index() if not here.startswith("refused")}
    here = [it for it in worded() if it not in left_out or it in known]
    if here:
        print(f"left_out: a name with a word is not left out, or is here: {' '.join(here)}", file=sys.stderr)
        return 1
    page = (TOP / "docs/MACRO.md").read_text()
    signs = page[slice(*part_of(page, SIGNS_HEAD))]
    missing = [it for it in operators() if f"`{it}`" not in signs]
    if missing:
        print(f"left_out: docs/MACRO.md has no row for {' '.join(missing)} among the signs", file=sys.stderr)
        return 1
    print(f"left_out: the page has the program's {len(names_table())} rows, and the index its {len(list(index()))} names and {len(operators())} operators")
    return 0


if __name__ == "__main__":
    sys.exit(main())
