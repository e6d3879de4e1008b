#!/usr/bin/env python3
"""Looks whether the sources keep the rule of the house: a refusal is an enum value with its data, its words stand in one
`Display`, no program compares a sentence, and none reads what a program of ours printed. CONTRIBUTING has it in full.

A sentence is a text with a blank between two words, or one that begins with `?`, as refusals do. A source that compares one is
told, with the line. EXCEPTIONS are the places that still do so; one that no longer does is told too, so that the list only
gets shorter."""

import os
import re
import sys

sys.dont_write_bytecode = True
import crates

# The places that still read what a program of ours printed: none.
EXCEPTIONS = set()

TEXT = r'b?"((?:[^"\\]|\\.)*)"'
COMPARED = re.compile(rf'(?:[=!]= *|(?:starts_with|ends_with|strip_prefix|strip_suffix|contains|eq_ignore_ascii_case)\( *){TEXT}|{TEXT} *(?:[=!]=|=>|\|)')
CONSTANT = re.compile(rf"\b(?:const|static) ([A-Z_0-9]+): &(?:'static )?(?:str|\[u8\]) =\s*{TEXT}")
NAMED = re.compile(r"(?:[=!]= *([A-Z_0-9]{2,})\b|\b([A-Z_0-9]{2,}) *(?:[=!]=|=>))")


def is_sentence(text):
    return text.startswith("?") or re.search(r"\S \S", text) is not None


def code_lines(text):
    """Gives the lines without comments and without clauses, numbered."""
    for number, line in enumerate(text.splitlines(), 1):
        bare = line.strip()
        if not bare.startswith(("//", "ensures", "requires", "ghost")):
            yield number, line


def sources():
    """Gives the sources of what people run: the crates of tests compare what is written, as they have to."""
    for crate in crates.libraries():
        if not crate.endswith(("_tests", "_check")):
            yield from (it for it in crates.files_of(crate) if it.endswith(".rt"))


def compared():
    """Gives each sentence that a source compares: its file, its line and its text."""
    texts = {os.path.relpath(file, f"{crates.TOP}/crates"): crates.text_of(file) for file in sources()}
    crate_of = {file: file.split("/")[0] for file in texts}
    named = {(crate_of[file], name) for file, text in texts.items() for name, said in CONSTANT.findall(text) if is_sentence(said)}
    for inside, text in texts.items():
        for number, line in code_lines(text):
            for found in COMPARED.finditer(line):
                said = found[1] if found[1] is not None else found[2]
                if is_sentence(said):
                    yield inside, number, said
            for found in NAMED.finditer(line):
                if (crate_of[inside], found[1] or found[2]) in named:
                    yield inside, number, found[1] or found[2]


def main():
    found = [*compared()]
    wrong = [it for it in found if (it[0], it[2]) not in EXCEPTIONS]
    for file, number, said in wrong:
        print(f"house_rules: crates/{file}:{number} compares the sentence {said!r}: compare the enum value that it was made from")
    gone = EXCEPTIONS - {(file, said) for file, _, said in found}
    for file, said in sorted(gone):
        print(f"house_rules: {file} no longer compares {said!r}: take it out of EXCEPTIONS")
    print(f"house_rules: {len(found) - len(wrong)} places left that compare a sentence")
    return 1 if wrong or gone else 0


if __name__ == "__main__":
    sys.exit(main())
