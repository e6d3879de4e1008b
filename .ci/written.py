"""What is written down beside a script or a source, and what a run of `lockmon` has to write on it; .ci/stored_runs.py makes these.

- A document has examples: a block marked `queue`, `run` or `asm`, behind it a block marked `output`, and where something
  is written to standard error a block marked `errors`.
- A script or a source of examples/ or tests/, NAME.queue, NAME.run or NAME.mac, has NAME.out. A comment that begins
  with `; lockmon ` has the words by which it is served. In a folder with a file of runs those without NAME.out are left
  to .ci/stored_runs.py, and so is a source that begins with `; macro `.
- A table NAME.queue.cases and so on has a script, ` | ` and what is written on it in each line.

The status of a run is 1 where its transcript ends with ?SCRIPT or ?ASM, and else 0."""
import re
from dataclasses import dataclass
from itertools import zip_longest
from pathlib import Path

DOCUMENTS = ("docs/MANUAL.md", "docs/MACRO.md", "docs/LOCKS.md", "docs/MACHINE.md")
COMMANDS = {".queue": "queue", ".run": "run", ".mac": "asm"}
REFUSALS = (b"?SCRIPT ", b"?ASM ")
ESCAPE = re.compile(rb"\\(x[0-9A-Fa-f]{2}|.?)")
ESCAPED = {b"n": b"\n", b"r": b"\r", b"t": b"\t", b"\\": b"\\"}


class Wrong(Exception):
    """What is wrong with a file."""


@dataclass(frozen=True)
class Case:
    """A run of `lockmon`, and what is to be written on standard output, or told on standard error."""

    place: str
    words: tuple
    script: bytes
    wanted: bytes
    is_told: bool = False

    @property
    def status(self):
        return 1 if lines_of(self.wanted)[-1].startswith(REFUSALS) else 0


def read(name):
    try:
        return Path(name).read_bytes()
    except OSError as error:
        raise Wrong(f"{name}: {error.strerror}") from error


def lines_of(text):
    """The lines of a text, without their ends."""
    return text.removesuffix(b"\n").split(b"\n")


def blocks_of(name):
    """The blocks of a document: how each is marked, its text, and the number of the line that ends it."""
    mark, block = None, []
    for number, line in enumerate(lines_of(read(name)), 1):
        if mark is None and line.startswith(b"```"):
            mark, block = line[3:].decode(), []
        elif mark is not None and line == b"```":
            yield mark, b"".join(line + b"\n" for line in block), number
            mark = None
        elif mark is not None:
            block.append(line)
    if mark is not None:
        raise Wrong(f"{name}: its last block has no end")


def cases_of_document(name):
    script, lacks_output = None, False
    for mark, text, end in blocks_of(name):
        place = f"{name}, the block that ends in line {end}"
        if mark in COMMANDS.values():
            if lacks_output:
                raise Wrong(f"{place}: the script before it has no output")
            script, lacks_output = ((mark,), text), True
        elif mark == "output" and lacks_output or mark == "errors" and script and not lacks_output:
            lacks_output = False
            yield Case(place, *script, text, mark == "errors")
        elif mark in ("output", "errors"):
            raise Wrong(f"{place}: it stands behind no script")
    if lacks_output:
        raise Wrong(f"{name}: its last script has no output")


def words_of(script, command):
    """The words by which a script is served."""
    for line in lines_of(script):
        if line.startswith(b"; lockmon "):
            return tuple(line.decode().split(" ")[2:])
    return (command,)


def case_of_script(path):
    script = read(path)
    return Case(str(path), words_of(script, COMMANDS[path.suffix]), script, read(path.with_suffix(".out")))


def is_of_macro(path):
    """Whether a source is one of `macro`, which its first comment says: those are run by .ci/stored_runs.py."""
    return read(path).startswith(b"; macro ")


def spelled(place, text):
    """The bytes that one side of a row spells."""

    def byte(found):
        if len(found[1]) == 3:
            return bytes([int(found[1][1:], 16)])
        if found[1] not in ESCAPED:
            raise Wrong(f"{place}: {found[0].decode()} spells no byte")
        return ESCAPED[found[1]]

    return ESCAPE.sub(byte, text)


def cases_of_table(path):
    command = COMMANDS.get(Path(path.stem).suffix)
    if command is None:
        raise Wrong(f"{path}: its name does not say what its scripts are written in")
    for number, line in enumerate(lines_of(read(path)), 1):
        place = f"{path}, line {number}"
        if line == b"" or line.startswith(b"#"):
            continue
        script, bar, output = (line[:-2], b"|", b"") if line.endswith(b" |") else line.rpartition(b" | ")
        if not bar:
            raise Wrong(f"{place}: this is no case")
        wanted = spelled(place, output)
        yield Case(place, (command,), spelled(place, script), wanted + b"\n" if wanted else b"")


def files_of(folder):
    return sorted(path for path in Path(folder).rglob("*") if path.is_file())


def cases_of_folder(folder):
    """The cases of the scripts, sources and tables of a folder and of those in it."""
    files = files_of(folder)
    with_runs = {path.parent for path in files if path.suffix == ".runs"}
    for path in files:
        found = []
        if path.suffix == ".cases":
            found = list(cases_of_table(path))
            if not found:
                raise Wrong(f"{path}: it has no case")
        elif path.suffix in COMMANDS and not is_of_macro(path) and (
            path.with_suffix(".out") in files or not with_runs & {path.parent, *path.parent.parents}
        ):
            found = [case_of_script(path)]
        yield from found


def all_cases():
    """Each case. A document or a folder has one at least."""
    sources = [(name, cases_of_document) for name in DOCUMENTS]
    sources += [(name, cases_of_folder) for name in ("examples", "tests")]
    for name, cases_of in sources:
        found = list(cases_of(name))
        if not found:
            raise Wrong(f"{name}: nothing in it is to be written")
        yield from found


def shown(line):
    """A line as it is told."""
    if line is None:
        return "(the end)"
    text = line.decode(errors="backslashreplace").encode("unicode_escape").decode("ascii")
    return f'"{text[:-2]}"' if line.endswith(b"\n") else f'"{text}" without an end'


def difference(wanted, given):
    """The first line in which two texts differ."""
    texts = [re.findall(rb"[^\n]*\n|[^\n]+", text) for text in (wanted, given)]
    for number, (line, found) in enumerate(zip_longest(*texts), 1):
        if line != found:
            return f"line {number} should be {shown(line)} and is {shown(found)}"
    return None
