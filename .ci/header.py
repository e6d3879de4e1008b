#!/usr/bin/env python3
"""Compares what contrib/library and examples/library say of the lock library with its sources: each number, each field of a
struct, the sizes of the structs, and the types of each function.

.ci/header.py           tells what differs
.ci/header.py --write   writes the numbers and sizes anew

locks.h is in C. A Python module and a Rust module have the same numbers and fields under the same names."""

import re
import sys

sys.dont_write_bytecode = True
import crates

HEADER = "contrib/library/locks.h"
PYTHON = "contrib/library/hirvodas_locks.py"
RUST = "examples/library/hirvodas_locks.rs"

# The C name of each refusal that the library can answer.
REFUSALS = {
    "NOT_GRANTED": "NotGranted",
    "BAD_KIND": "NoFunction",
    "BAD_ID": "BadBlock",
    "BAD_COUNT": "BadCount",
    "BAD_NAME": "BadName",
    "BAD_TERMS": "BadQualifier",
    "BAD_POOL": "BadPool",
    "DIFFERS": "Differs",
    "LEVEL_ORDER": "LevelOrder",
    "NAMED_ALREADY": "NamedAlready",
    "NOT_PRESENT": "NotPresent",
    "WOULD_LOSE": "WouldLose",
    "FULL": "QueueFull",
    "OVER_QUOTA": "OverQuota",
}
SIZES = {"JOBS": "JOBS", "REQUESTS": "MOST_REQUESTS", "WANTS": "LOCKS_A_CALL", "NAME": "NAME_LENGTH"}
KINDS = {"BLOCKING": "Blocking", "TRY": "AtOnce", "NOTIFY": "Interrupt"}

# The types of C, of Python and of both kinds of Rust, and how many bytes each takes.
NUMBERS = {"u8": ("uint8_t", 1), "u16": ("uint16_t", 2), "u32": ("uint32_t", 4), "u64": ("uint64_t", 8), "usize": ("size_t", 8)}

CONSTANT = re.compile(r"^pub const (\w+): u\w+ = (\d+);", re.MULTILINE)
STRUCT = re.compile(r"#\[repr\(C\)\]\n(?:#\[derive\([^\n]*\)\]\n)?pub struct (Lock\w+) \{\n(.*?)\n\}", re.DOTALL)
FIELD = re.compile(r"^ *pub (\w+): (\[?\w+(?:; \d+\])?),", re.MULTILINE)
EXPORT = re.compile(r'pub extern "C" fn (\w+)\((.*?)\)(?: -> (\w+))?\s*\n', re.DOTALL)
PROTOTYPE = re.compile(r"^(\w+) (locks_\w+)\((.*)\);$", re.MULTILINE)


def source(name):
    return crates.text_of(f"{crates.TOP}/crates/{name}")


def numbers():
    """Gives each number by its name, without `LOCKS_`."""
    found = dict(CONSTANT.findall(source("lock_service/src/codes.rt")))
    found.pop("NOT_THERE", None)
    found |= dict(CONSTANT.findall(source("lock_service/src/spelling.rt")))
    sizes = dict(CONSTANT.findall(source("word36/src/sizes.rt")))
    found |= {name: sizes[it] for name, it in SIZES.items()}
    codes = dict(re.findall(r"Refusal::(\w+) => (\d+),", source("lock_queue/src/refusal.rt")))
    found |= {name: codes[it] for name, it in REFUSALS.items()}
    kinds = dict(re.findall(r"EnqueueKind::(\w+) => (\d+),", source("lock_service/src/readings.rt")))
    found |= {name: kinds[it] for name, it in KINDS.items()}
    return found | {"NO_QUOTA": str(2**16 - 1)}


def structs():
    """Gives the fields of each struct that crosses to C, each with its name and type."""
    text = source("lock_service/src/spelling.rt") + source("lock_service/src/readings.rt")
    return {name: FIELD.findall(fields) for name, fields in STRUCT.findall(text)}


def parts_of(type_):
    """Gives the number that a type is made of, and how often."""
    array = re.fullmatch(r"\[(\w+); (\d+)\]", type_)
    return (array[1], int(array[2])) if array else (type_, 1)


def size_of(fields):
    """Gives how many bytes a struct takes in C."""
    end, widest = 0, 1
    for _, type_ in fields:
        number, count = parts_of(type_)
        bytes_ = NUMBERS[number][1]
        end = -(-end // bytes_) * bytes_ + count * bytes_
        widest = max(widest, bytes_)
    return -(-end // widest) * widest


def snake(name):
    """Gives the C name of a struct."""
    return re.sub(r"(?<=[a-z])(?=[A-Z])", "_", name).lower()


def c_parameters(text):
    """Gives the types of the C parameters of an export."""
    found = []
    for it in (it.strip() for it in text.split(",")):
        if not it or it == "alloc: Global":
            continue
        type_ = it.partition(": ")[2]
        pointed = re.fullmatch(r"(&mut |&)(\[?)(\w+)\]?", type_)
        if type_ in NUMBERS:
            found.append(NUMBERS[type_][0])
        elif pointed and pointed[3] == "Handle":
            found.append("locks *")
        else:
            found.append(f"{'' if 'mut' in pointed[1] else 'const '}{snake(pointed[3])} *")
            found += ["size_t"] * bool(pointed[2])
    return found


def prototypes():
    """Gives the types of each function of the library."""
    found = {}
    for name, parameters, result in EXPORT.findall(source("locks_c/src/lib.rt")):
        found[name] = NUMBERS[result][0] if result else "void", c_parameters(parameters)
    return found


def type_of(parameter):
    """Gives the type of a parameter of a C prototype."""
    return re.fullmatch(r"(.*?)\w+", parameter.strip())[1].strip()


def fields_in(file, text, name):
    """Gives the fields of a struct as a module of a language has them, in the words of the sources."""
    words = {c: it for it, (c, _) in NUMBERS.items()}
    if file == HEADER:
        body = re.search(rf"typedef struct \{{\n([^}}]*)\}} {snake(name)};", text)
        found = re.findall(r"^ +(\w+) (\w+)(?:\[(\d+)\])?;", body[1], re.MULTILINE)
        return [(field, f"[{words[type_]}; {count}]" if count else words[type_]) for type_, field, count in found]
    if file == PYTHON:
        own = {"LockTerms": "Lock"}.get(name, name.removeprefix("Lock"))
        body = re.search(rf"class {own}\(ctypes.Structure\):.*?_fields_ = \[(.*?)\]\n", text, re.DOTALL)
        found = re.findall(r'\("(\w+)", ctypes\.c_(\w+)( \* NAME_BYTES)?\)', body[1])
        bytes_ = re.search(r"^NAME_BYTES = (\d+)$", text, re.MULTILINE)[1]
        return [(field, f"[{words[it + '_t']}; {bytes_}]" if many else words[it + "_t"]) for field, it, many in found]
    body = re.search(rf"pub struct {name} \{{\n(.*?)\n\}}", text, re.DOTALL)
    return FIELD.findall(body[1]) if body else None


def faults():
    """Tells what differs, apart from numbers and sizes."""
    texts = {file: crates.text_of(f"{crates.TOP}/{file}") for file in (HEADER, PYTHON, RUST)}
    for name, fields in structs().items():
        for file, text in texts.items():
            found = fields_in(file, text, name)
            if found is not None and found != fields:
                yield f"{file}: {name} has the fields {found}, and the library {fields}"
    wanted = prototypes()
    found = {name: (result, [type_of(it) for it in words.split(",")]) for result, name, words in PROTOTYPE.findall(texts[HEADER])}
    for name in wanted.keys() | found.keys():
        if wanted.get(name) != found.get(name):
            yield f"{HEADER}: {name} is {found.get(name)}, and in the library {wanted.get(name)}"
    names = {it for it in re.findall(r"^    LOCKS_(\w+) = \d+", texts[HEADER], re.MULTILINE)}
    for name in numbers().keys() ^ names:
        yield f"LOCKS_{name} is not in both {HEADER} and the sources"


def written(file):
    """Gives a file with the numbers and sizes of the sources."""
    known, sizes = numbers(), {snake(name): size_of(fields) for name, fields in structs().items()}
    text = crates.text_of(f"{crates.TOP}/{file}")
    forms = {HEADER: r"(?<=\n    LOCKS_)(\w+)( = )\d+", PYTHON: r"(?<=\n)([A-Z_]+)( = )\d+(?=\n)", RUST: r"(?<=pub const )(\w+)(: u\d+ = )\d+"}
    text = re.sub(forms[file], lambda it: f"{it[1]}{it[2]}{known[it[1]]}" if it[1] in known else it[0], text)
    return re.sub(r"(?<=sizeof\()(\w+)(\) == )\d+", lambda it: f"{it[1]}{it[2]}{sizes[it[1]]}", text)


def main(words):
    told = [*faults()]
    for file in (HEADER, PYTHON, RUST):
        text = written(file)
        if text == crates.text_of(f"{crates.TOP}/{file}"):
            continue
        if words != ["--write"]:
            told.append(f"{file}: its numbers are not those of the sources: .ci/header.py --write")
            continue
        with open(f"{crates.TOP}/{file}", "w", encoding="utf-8") as to:
            to.write(text)
    for it in told:
        print(f"header: {it}", file=sys.stderr)
    if not told:
        print(f"header: {len(numbers())} numbers, {len(structs())} structs and {len(prototypes())} functions are those of the library", file=sys.stderr)
    return 1 if told else 0


if __name__ == "__main__":
    sys.exit(main(sys.argv[1:]))
