"""The crates of this repository, what each promises, and sums of what a verdict on one rests on."""

import functools
import hashlib
import os
import re
import subprocess

TOP = os.path.dirname(os.path.dirname(os.path.realpath(__file__)))

# The folders of a crate that its proof reads.
PARTS = ("src", "specs", "proofs")


@functools.lru_cache(maxsize=None)
def lines():
    """Gives each crate with the words behind its name in crates.txt, and with the libraries that its line names."""
    found = {}
    with open(f"{TOP}/crates.txt", encoding="utf-8") as text:
        for line in text:
            head, colon, uses = line.partition("#")[0].partition(":")
            if colon:
                name, *kind = head.split()
                found[name] = kind, uses.split()
    return found


@functools.lru_cache(maxsize=None)
def libraries():
    """Gives each crate with the libraries that its line of crates.txt names."""
    return {name: uses for name, (_, uses) in lines().items()}


def is_static(name):
    """Whether a crate is a static library, for programs in other languages."""
    return "staticlib" in lines()[name][0]


def below(name, found=None):
    """Gives the crates that a crate rests on, each behind those that it uses itself."""
    found = [] if found is None else found
    for it in libraries()[name]:
        if it in libraries() and it not in found:
            below(it, found)
            found.append(it)
    return found


def files_of(name):
    """Gives the files that the proof of a crate reads, in order."""
    for part in PARTS:
        for at, folders, files in os.walk(f"{TOP}/crates/{name}/{part}"):
            folders.sort()
            for file in sorted(files):
                yield os.path.join(at, file)


def has_tests(name):
    """Whether a source of the crate has a test function."""
    return any(file.endswith(".rt") and "#[test]" in text_of(file) for file in files_of(name))


def text_of(file):
    with open(file, encoding="utf-8") as it:
        return it.read()


def crate_of(program):
    """Gives the crate of a program: that of its name, or NAME_main, as for `macro`, whose name is a word of Rattle."""
    return program if program in libraries() else f"{program}_main"


@functools.lru_cache(maxsize=None)
def logic():
    """Gives the sum of the logic that the Rattle kit proves by. Kits that share it take the same proofs."""
    said = subprocess.run(["rt", "version"], capture_output=True, text=True, check=True).stdout
    return re.search(r"\blogic (\w+)", said)[1]


# A comment to the end of its line; a text and a character stand before it, so that `//` in one is none.
COMMENT = re.compile(r"""("(?:[^"\\]|\\.)*"|'(?:[^'\\\n]|\\.)'|b'(?:[^'\\\n]|\\.)')|//[^\n]*""")
HEAD = re.compile(r'^( *)(?:pub(?:\([a-z]+\))? )?(?:const |extern "C" )?fn \w+')


def code_of(file):
    """Gives the lines of a file without comments and empty lines."""
    text = text_of(file)
    if file.endswith(".rt"):
        text = COMMENT.sub(lambda it: it[1] or "", text)
    return [it.rstrip() for it in text.splitlines() if it.strip() and not it.lstrip().startswith("-- ")]


def without_bodies(lines):
    """Gives the lines of a source, in the layout of `rt fmt`, without what stands in the bodies of functions. A body
    begins behind a `{` that ends the line of its `fn`, or that stands alone below it, and ends at the `}` below that."""
    kept, indent, is_body = [], None, False
    for line in lines:
        head = HEAD.match(line) if indent is None else None
        if is_body:
            if line.startswith(f"{indent}}}"):
                kept.append(line)
                indent, is_body = None, False
            continue
        kept.append(line)
        if head and not line.endswith(("}", ";")):
            indent, is_body = head[1], line.endswith("{")
        elif indent is not None and line == f"{indent}{{":
            is_body = True
        elif indent is not None and line.endswith(";") and line.startswith(f"{indent} "):
            indent = None
    return kept


@functools.lru_cache(maxsize=None)
def promise_of(name):
    """Gives what the crates above may rest on: the definitions, the lemmas that any crate may cite, and the sources
    without the bodies of functions."""
    found = []
    for file in files_of(name):
        inside = os.path.relpath(file, f"{TOP}/crates/{name}")
        if inside.startswith("src/"):
            found.append((inside, without_bodies(code_of(file))))
        elif inside.startswith("specs/") or inside in public_lemmas(name):
            found.append((inside, code_of(file)))
    return found


def public_lemmas(name):
    """Gives the files of lemmas that other crates can cite: those that proofs/Lib.antt declares by `pub mod`, and itself."""
    root = f"{TOP}/crates/{name}/proofs/Lib.antt"
    if not os.path.exists(root):
        return set()
    named = re.findall(r"^pub mod (\w+)", text_of(root), re.MULTILINE)
    return {"proofs/Lib.antt", *(f"proofs/{it}.antt" for it in named)}


@functools.lru_cache(maxsize=None)
def sum_of(name):
    """Gives the sum of all that a verdict on a function of the crate rests on: the logic, HANDLES, the crate's own
    code, definitions and proofs, and what the crates below promise. How those below keep it counts for nothing."""
    own = [logic(), text_of(f"{TOP}/HANDLES"), name, sorted(libraries()[name])]
    own += [(os.path.relpath(file, TOP), code_of(file)) for file in files_of(name)]
    own += [(it, promise_of(it)) for it in sorted(below(name))]
    return hashlib.sha256(repr(own).encode()).hexdigest()
