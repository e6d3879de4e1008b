"""Prints a function's contract and every definition that it reaches, each behind those that it uses: what a reader has to
read to know what was proved.

./check --reads monitor/System::run      # a function of a crate
./check --reads monitor/System::run --names      # the names alone, with their files and their numbers of lines

A definition is read where it stands: in `specs/` of a crate of this repository, or, for a type, in its source. What std and
the kit's crates define is named at the end, and not printed."""

import functools
import os
import re
import sys

import crates

# A declaration of `specs/`, and the clauses that go on with it.
DECLARED = re.compile(r"^(?:(?:abbrev|unfoldable|pub|record|data) )*(?:pub )?(?P<name>[^\s:(]+)(?=\s|:|\()")
KIND = re.compile(r"^(abbrev|unfoldable|record|data|pub (?:record|data)\b|pub (?!mod|use))")
USED = re.compile(r"^\s*(?:ghost |pub )?use Rattle\.([\w.]+)\.\{([^}]*)\}", re.MULTILINE)
WORD = re.compile(r"[A-Za-z_][\w'-]*")
RUST_USED = re.compile(r"^(?:pub )?use (\w+)::(?:\w+::)*(?:\{([^}]*)\}|(\w+));", re.MULTILINE)
FUNCTION = re.compile(r"^( *)(?:pub(?:\([a-z]+\))? )?(?:const |extern \"C\" )?fn (\w+)")
OWNER = re.compile(r"^(?:impl\b(?:<.*?>)? (?:[\w:]+(?:<.*>)? for )?&?([\w:]+)|(?:pub )?trait (\w+))")
CLAUSE = re.compile(r"^\s*(?:#\[.*\]\s*)?(requires|ensures|ghost)\b")


class Definition:
    """A definition of a file: its name, its lines, and where the first of them is."""

    def __init__(self, name, file, first, lines):
        self.name, self.file, self.first, self.lines = name, file, first, lines

    def count(self):
        """Gives its number of lines, without comments."""
        return sum(bool(it.strip()) and not it.lstrip().startswith(("--", "//")) for it in self.lines)


class Module:
    """A file of `specs/`: its definitions by name, and where the other names that it uses come from."""

    def __init__(self, file):
        self.file, self.names = file, imports_of(crates.text_of(file))
        self.own = {it.name: it for it in definitions_of(file)}


def imports_of(text):
    """Gives for each name that a text imports the module and the name that it has there."""
    found = {}
    for module, names in USED.findall(text):
        for it in names.split(","):
            there, _, here = it.strip().partition(" as ")
            found[(here or there).strip()] = (module, there.strip())
    return found


def types_used(text):
    """Gives for each name that a source brings in from another crate that crate."""
    found = {}
    for crate, several, one in RUST_USED.findall(text):
        if crate not in ("crate", "self", "super"):
            found.update((it.strip(), crate) for it in (several or one).split(","))
    return found


def definitions_of(file):
    """Gives the definitions of a file of `specs/`, each with the comment in front of it and all of its clauses."""
    lines = crates.text_of(file).splitlines()
    found, comment = [], []
    for number, line in enumerate(lines):
        if line.startswith("--"):
            comment.append(line)
        elif not line.strip() or line.startswith("use ") or line.startswith(("pub mod", "pub use", "mod ")):
            comment = []
        elif line[0].isspace() or line.startswith("}"):
            if found:
                found[-1].lines += [*comment, line]
            comment = []
        else:
            name = DECLARED.match(line)
            is_head = KIND.match(line) or re.match(r"^[^\s:]+ :", line)
            if name and (is_head or not found or found[-1].name != name["name"]):
                found.append(Definition(name["name"], file, number - len(comment), [*comment, line]))
            elif found:
                found[-1].lines += [*comment, line]
            comment = []
    return found


@functools.lru_cache(maxsize=None)
def type_of(crate, name):
    """Gives the declaration of a type or a constant in the sources of a crate, or None."""
    declared = re.compile(rf"^pub(?:\([a-z]+\))? (?:struct|enum|trait|const|static|type) {re.escape(name)}\b")
    for file in sorted(crates.files_of(crate)):
        if not file.endswith(".rt"):
            continue
        lines = crates.text_of(file).splitlines()
        for number, line in enumerate(lines):
            if declared.match(line):
                first = number
                while first and lines[first - 1].startswith(("///", "#[")):
                    first -= 1
                last = number if line.rstrip().endswith((";", "}")) else next(at for at in range(number, len(lines)) if lines[at].startswith("}"))
                return Definition(name, file, first, lines[first : last + 1])
    return None


class Reader:
    """Finds what a text reaches: definitions in the order in which they can be read, and the names of std and the kit."""

    def __init__(self):
        self.modules, self.met, self.order, self.outside = {}, set(), [], set()

    def module(self, path):
        """Gives the module of a path, as `lock_queue.specs.Queue`, or None where it is none of this repository."""
        if path not in self.modules:
            crate, _, rest = path.partition(".specs.")
            file = f"{crates.TOP}/crates/{crate}/specs/{rest.replace('.', '/')}.antt"
            self.modules[path] = Module(file) if os.path.isfile(file) else None
        return self.modules[path]

    def walk(self, words, names, own, skip=()):
        """Reads each word that is a name: of the file itself, or imported there."""
        for word in words:
            if word in skip:
                continue
            if word in own:
                self.read(own[word], names, own)
            elif word in names:
                self.read_at(*names[word])

    def read_at(self, path, name):
        """Reads the definition of that name in a module."""
        crate = path.split(".")[0]
        module = self.module(path)
        if module and name in module.own:
            self.read(module.own[name], module.names, module.own)
        elif module and name in module.names:
            self.read_at(*module.names[name])
        elif crate in crates.libraries():
            # (a type, a variant or a constant of a source: `declared` in its path)
            *_, owner, last = path.split(".")
            self.read_type(type_of(crate, name) or type_of(crate, owner if last.startswith("The") else last))
        else:
            self.outside.add(name)

    def read_type(self, it):
        """Reads the declaration of a type, and before it those of its fields."""
        if it is None or (it.file, it.first) in self.met:
            return
        self.met.add((it.file, it.first))
        crate = os.path.relpath(it.file, f"{crates.TOP}/crates").split(os.sep)[0]
        known = types_used(crates.text_of(it.file))
        for word in WORD.findall("\n".join(line for line in it.lines if not line.lstrip().startswith(("///", "#[")))):
            if word[0].isupper() and word != it.name:
                self.read_type(type_of(known.get(word, crate), word) if known.get(word, crate) in crates.libraries() else None)
        self.order.append(it)

    def read(self, it, names, own):
        if (it.file, it.first) in self.met:
            return
        self.met.add((it.file, it.first))
        text = "\n".join(line for line in it.lines if not line.lstrip().startswith("--"))
        self.walk(WORD.findall(text), names, own, (it.name,))
        self.order.append(it)


def contract_of(crate, path):
    """Gives the file of a function, the line where it begins, and the lines of its contract, or None."""
    owner, _, name = path.rpartition("::")
    for file in sorted(it for it in crates.files_of(crate) if it.endswith(".rt")):
        lines, inside = crates.text_of(file).splitlines(), ""
        for number, line in enumerate(lines):
            found = OWNER.match(line)
            inside = (found[1] or found[2]).rpartition("::")[2] if found else "" if line.startswith("}") else inside
            head = FUNCTION.match(line)
            if head and head[2] == name and owner in ("", inside):
                last = next((at for at in range(number, len(lines)) if lines[at].rstrip() in (f"{head[1]}{{", f"{head[1]}{{}}") or lines[at].rstrip().endswith("{}")), number)
                first = number
                while first and lines[first - 1].lstrip().startswith(("///", "#[")):
                    first -= 1
                contract = lines[first : last + 1] if lines[last].strip() != "{" else lines[first:last]
                if any(CLAUSE.match(it) for it in contract):
                    return file, number, contract
    return None


def tell(place, names_alone):
    """Prints what a function's contract rests on; gives whether there is such a function."""
    crate, _, path = place.partition("/")
    found = contract_of(crate, path) if crate in crates.libraries() else None
    if not found:
        print(f"check: {place} is no function with a contract: write CRATE/FUNCTION or CRATE/TYPE::FUNCTION", file=sys.stderr)
        return False
    file, number, contract = found
    reader = Reader()
    clauses = "\n".join(it for it in contract if not it.lstrip().startswith(("///", "//")))
    reader.walk(WORD.findall(clauses), imports_of(crates.text_of(file)), {})
    for it in reader.order:
        where = f"{os.path.relpath(it.file, crates.TOP)}:{it.first + 1}"
        if names_alone:
            print(f"{it.count():5} {it.name:32} {where}")
        else:
            print(f"-- {where}", *it.lines, "", sep="\n")
    if not names_alone:
        print(f"-- {os.path.relpath(file, crates.TOP)}:{number + 1}", *contract, "", sep="\n")
    lines = sum(it.count() for it in reader.order)
    print(f"{len(reader.order)} definitions, {lines} lines; std and the kit's crates define {' '.join(sorted(reader.outside))}")
    return True


def main(words):
    names_alone = words[1:] == ["--names"]
    if not words or (words[1:] and not names_alone):
        print(__doc__, file=sys.stderr)
        return 2
    return 0 if tell(words[0], names_alone) else 2


if __name__ == "__main__":
    sys.exit(main(sys.argv[1:]))
