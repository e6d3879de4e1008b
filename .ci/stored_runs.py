#!/usr/bin/env python3
"""Makes the runs that are stored, and compares what each writes, what it tells and its status with what stands there:

- those of tests/FOLDER/SUBJECT.runs, of which tests/README.md has the form;
- the documents' examples, and the scripts, sources and tables of examples/ and tests/ (.ci/written.py has the forms);
- the commands behind `$ ` in the indented blocks of PAGES, those of a page in order;
- the sessions of `ddt`, NAME.ddt of examples/ and tests/ddt, whose first line names the words of the command: NAME.out has each line
  with its answer behind it. A session is obeyed from a file by .DO, and over a pipe, where the answers alone are written;
- what each program and each of its commands says to --help (contrib/help has it) and to --version.

A run is made twice: by the build of LLVM, with its input in a file, and by that of Rattle's own compiler, with its input over a
socket, in pieces of 1 to 7 bytes; or where a word NAME=PATH of this command says, by that program both times, and then the runs
alone are made that need no other program. A run is made in a folder with the files of examples/ and of the folder of its file, and
takes at most two minutes (HIRVODAS_SECONDS has another number of seconds). The word --once has it made once alone, in pieces;
--leave=FILE leaves out the runs of a file, and --leave=COMMAND those of a command. The word --write writes anew what the first
gives, where it is not what is stored: in files of runs, of sessions and of contrib/help."""
import difflib
import os
import re
import shlex
import signal
import socket
import subprocess
import sys
from concurrent.futures import ThreadPoolExecutor
from dataclasses import dataclass, field
from itertools import chain, cycle, groupby
from pathlib import Path
from tempfile import TemporaryDirectory, TemporaryFile

sys.dont_write_bytecode = True
import crates
import written

TOP = Path(__file__).resolve().parent.parent
HELP = TOP / "contrib/help"
PROGRAMS = ("ka_run", *sorted(it.stem for it in HELP.glob("*.txt") if "-" not in it.stem))
PAGES = ("README.md", "docs/MANUAL.md", "docs/MACRO.md", "docs/COURSE.md", "docs/PORTING.md")
MARKS = "$>|!="
"""What the lines of a run begin with, in their order."""
TEXT_LINE = re.compile(r"([>|!])(\\?)(?:\*([0-9]+))?(?: (.*))?")
NO_END = "\\ no end"
ESCAPE = re.compile(rb"\\(x[0-9A-Fa-f]{2}|.?)")
NAMED = {b"r": b"\r", b"t": b"\t", b"\\": b"\\"}
ESCAPED = {byte[0]: "\\" + letter.decode() for letter, byte in NAMED.items()}
CONTROL = re.compile("[\0-\x08\x0a-\x1f\x7f]")
MANY = 10
"""So many lines in a row that are the same are written as one."""
NAMES = re.compile(r"(?:^|[|;(&{']|\bdo\b)(?= *(?:\./)?([a-z_]+))")
"""What stands where a command names a program."""
SECONDS = int(os.environ.get("HIRVODAS_SECONDS", "120"))
UNREAD = 9
"""The descriptor of a pipe that nobody reads."""
NOT_THERE = (".runs", ".out", ".md", ".svg")
"""Files that a run finds only by their folder."""


class Wrong(Exception):
    """What is wrong, and ends all."""


@dataclass(eq=False)
class Run:
    """A run: where it stands, its command, its input, and what it has to give; None where that may be anything."""

    file: Path
    line: int
    command: str
    texts: dict = field(default_factory=lambda: {">": b"", "|": b"", "!": b""})
    status: int = 0
    stored: range = range(0)
    """The lines of its file that have what it has to give."""
    place: str = ""
    """How it is told where it stands, if not by file and line."""
    folder: str = ""
    """The folder in which it is made, if not the one of its file."""
    kept: Path = None
    """The file that has what it writes, as a whole, if that may be written anew."""

    def __post_init__(self):
        self.place = self.place or f"{self.file.relative_to(TOP)}:{self.line}"
        self.folder = self.folder or self.file.parent.name

    @property
    def wanted(self):
        return self.texts["|"], self.texts["!"], self.status

    def needs(self):
        """The programs that its command names."""
        return {it for it in NAMES.findall(self.command) if it in PROGRAMS}

    def take(self, last, line):
        """Takes a line behind one with the mark `last`, and gives its mark."""
        found = TEXT_LINE.fullmatch(line)
        if found:
            mark, is_spelled, count, text = found.groups(default="")
            text = ESCAPE.sub(byte_of, text.encode()) if is_spelled else text.encode()
            self.texts[mark] += (text + b"\n") * int(count or 1)
        elif line == NO_END and last in self.texts:
            mark = last
            self.texts[mark] = self.texts[mark].removesuffix(b"\n")
        elif re.fullmatch("= [1-9][0-9]*", line):
            mark, self.status = "=", int(line[2:])
        else:
            raise Wrong("no line of a run")
        if MARKS.index(mark) < MARKS.index(last):
            raise Wrong(f"it stands behind a line with the mark {last}")
        return mark


def byte_of(found):
    """The byte for which an escape stands."""
    letters = found[1]
    if len(letters) == 3:
        return bytes([int(letters[1:], 16)])
    if letters not in NAMED:
        raise Wrong(f"{found[0].decode()} stands for no byte")
    return NAMED[letters]


def lines_in(file):
    return file.read_bytes().decode().removesuffix("\n").split("\n")


# ---- what is stored


def runs_of(file):
    """The runs of a file of runs."""
    runs, run, last = [], None, ""
    for number, line in enumerate(lines_in(file), 1):
        try:
            if CONTROL.search(line):
                raise Wrong("a control character, which a line with the mark >\\, |\\ or !\\ can spell")
            if line == "" or line[0] == ";":
                run = None
            elif re.match(r"\$ [^ ]", line):
                run, last = Run(file, number, line[2:]), "$"
                runs.append(run)
            elif run is None:
                raise Wrong("it belongs to no run")
            else:
                last = run.take(last, line)
        except Wrong as wrong:
            raise Wrong(f"{file.relative_to(TOP)}:{number}: {wrong}") from wrong
        if run is not None:
            run.stored = range(number if last in "$>" else run.stored.start, number)
    return runs


def runs_of_page(page):
    """The commands that a page shows behind `$ ` in its indented blocks, each with all that it writes and tells below it."""
    runs, run, blanks = [], None, b""
    for number, line in enumerate(lines_in(TOP / page), 1):
        if line.startswith("    $ "):
            command = f"bash -c {shlex.quote(line[6:])} 2>&1"
            run, blanks = Run(TOP / page, number, command, status=None, folder=f"page-{Path(page).stem}"), b""
            runs.append(run)
        elif line.startswith("    ") and run:
            run.texts["|"] += blanks + line[4:].encode() + b"\n"
            blanks = b""
        elif line:
            run = None
        else:
            blanks += b"\n"
    return runs


def runs_written():
    """The documents' examples, and the scripts, sources and tables."""
    for case in written.all_cases():
        output, told, status = (None, case.wanted, None) if case.is_told else (case.wanted, None, case.status)
        texts = {">": case.script, "|": output, "!": told}
        yield Run(TOP / case.place, 1, shlex.join(["lockmon", *case.words]), texts, status, place=case.place, folder="cases")


def runs_of_session(session):
    """A session of `ddt`, obeyed from a file and over a pipe."""
    command = "ddt " + re.match(r"; ddt (.*): ", lines_in(session)[0])[1]
    shown = session.with_suffix(".out")
    lines = shown.read_bytes() if shown.exists() else b""
    answers = b"".join(it for it in lines.splitlines(keepends=True) if not it.startswith(b"* "))
    texts = {">": b".DO %b\n" % session.name.encode(), "|": lines, "!": b""}
    yield Run(session, 1, command, texts, folder="ddt", kept=shown)
    yield Run(session, 1, command, {">": session.read_bytes(), "|": answers, "!": None}, folder="ddt")


def runs_of_help():
    """What the programs say to --help and --version."""
    version = (HELP / "version").read_text().strip()
    for text in sorted(HELP.glob("*.txt")):
        name, _, command = text.stem.partition("-")
        status = 2 if name == "lockmon" else 0
        yield Run(text, 1, f"{name} {command} --help 2>&1", {">": b"", "|": text.read_bytes(), "!": b""}, status, folder="cases", kept=text)
        if not command:
            said = f"{name} {version}\n".encode()
            yield Run(text, 1, f"{name} --version 2>&1", {">": b"", "|": said, "!": b""}, status, folder="cases")


def all_runs():
    """All that is stored, in lists of runs that are made in order."""
    runs = [run for file in sorted(TOP.glob("tests/*/*.runs")) for run in runs_of(file)]
    for script in sorted(TOP.glob("examples/*.queue")):
        if not any(run.command == f"lockcheck --all {script.name}" for run in runs):
            raise Wrong(f"{script.relative_to(TOP)}: no run has `lockcheck --all` look at it")
    sessions = sorted([*TOP.glob("examples/*.ddt"), *TOP.glob("tests/ddt/*.ddt")])
    alone = chain(runs, runs_written(), runs_of_help())
    return [*map(runs_of_page, PAGES), *(list(runs_of_session(it)) for it in sessions), *([run] for run in alone)]


# ---- how what is given is shown and written


def spelled(mark, line, count):
    """The line of a file that has a line so many times."""
    text = line.decode(errors="replace")
    is_spelled = bool(CONTROL.search(text)) or text.encode() != line
    if is_spelled:
        text = "".join(ESCAPED.get(byte) or (chr(byte) if 32 <= byte < 127 else f"\\x{byte:02x}") for byte in line)
    head = mark + "\\" * is_spelled + f"*{count}" * (count > 1)
    return f"{head} {text}" if text else head


def lines_of(mark, text):
    """The lines of a file that have a text."""
    *lines, rest = text.split(b"\n")
    for line, same in groupby(lines):
        count = len(list(same))
        yield from [spelled(mark, line, count)] if count >= MANY else [spelled(mark, line, 1)] * count
    if rest:
        yield from (spelled(mark, rest, 1), NO_END)


def lines_of_all(text, told, status):
    """The lines of a file that have what a run gave."""
    return [*lines_of("|", text), *lines_of("!", told), *([f"= {status}"] if status else [])]


def difference(job, wanted, given):
    """The lines that tell of a run that gave something else."""
    run, build, is_in_pieces = job
    manner = [os.readlink(build / "bin" / it) for it in sorted(run.needs())] + ["its input in pieces"] * is_in_pieces
    yield f"{run.place}: $ {run.command} ({', '.join(manner)})"
    lines = difflib.unified_diff(lines_of_all(*wanted), lines_of_all(*given), lineterm="", n=1)
    yield from list(lines)[2:]


def write_anew(changed):
    """Writes what runs gave into their files."""
    for file, pairs in groupby((it for it in changed if it[0].stored), key=lambda pair: pair[0].file):
        lines = lines_in(file)
        for run, given in reversed(list(pairs)):
            lines[run.stored.start : run.stored.stop] = lines_of_all(*given)
        file.write_text("".join(line + "\n" for line in lines))
    for run, given in changed:
        if run.kept:
            run.kept.write_bytes(given[0])


# ---- making them


def furnish(there, *folders):
    """Makes a folder in which runs are made, with the files of these folders."""
    there.mkdir()
    for name in ("examples", "tests"):
        (there / name).symlink_to(TOP / name)
    for file in (it for folder in (TOP / "examples", *folders) for it in sorted(folder.iterdir())):
        if file.is_file() and file.suffix not in NOT_THERE:
            if (there / file.name).is_symlink():
                raise Wrong(f"{file.relative_to(TOP)}: another file has its name")
            (there / file.name).symlink_to(file)


def make_builds(folder, runs, paths):
    """Makes the folders of the two builds of all programs, in each of which runs are made, and gives these, and the programs that
    are not there."""
    builds, absent = [], set()
    for suffix in ("", ".by-rattle"):
        build = folder / f"build{suffix}"
        (build / "bin").mkdir(parents=True)
        for name in PROGRAMS:
            crate = crates.crate_of(name)
            path = paths.get(name, TOP / f"crates/{crate}/out/{crate}{suffix}")
            (build / "bin" / name).symlink_to(path)
            if not os.access(path, os.X_OK):
                absent.add(name)
        for name in {run.folder for run in runs}:
            furnish(build / name, *([TOP / "tests" / name] if (TOP / "tests" / name).is_dir() else []))
            if name.startswith("page-"):
                for program in PROGRAMS:
                    (build / name / program).symlink_to(build / "bin" / program)
        builds.append(build)
    return builds, absent


def give(run, build, is_in_pieces):
    """What a run gives, as a build makes it."""
    ours, theirs = socket.socketpair(socket.AF_UNIX, socket.SOCK_SEQPACKET)
    with TemporaryFile() as given, TemporaryFile() as text, TemporaryFile() as told, ours:
        given.write(run.texts[">"])
        given.seek(0)
        with theirs:
            process = subprocess.Popen(
                ["sh", "-c", run.command],
                cwd=build / run.folder,
                env={**os.environ, "LC_ALL": "C", "PATH": f"{build}/bin:{os.environ['PATH']}"},
                stdin=theirs if is_in_pieces else given,
                stdout=text,
                stderr=told,
                pass_fds=[UNREAD],
                start_new_session=True,
            )
        try:
            if is_in_pieces:
                send(ours, run.texts[">"])
            status = process.wait(SECONDS)
        except (TimeoutError, subprocess.TimeoutExpired):
            os.killpg(process.pid, signal.SIGKILL)
            status = process.wait()
        text.seek(0)
        told.seek(0)
        return text.read(), told.read(), status if status >= 0 else 128 - status


def send(ours, text):
    """Sends a text in pieces, each of which is read alone, as far as anybody reads it."""
    ours.settimeout(SECONDS)
    sizes = cycle(range(1, 8))
    sent = 0
    try:
        while sent < len(text):
            sent += ours.send(text[sent : sent + next(sizes)])
    except (BrokenPipeError, ConnectionResetError):
        pass
    ours.close()


def open_unread():
    """Opens the pipe that nobody reads."""
    reading, writing = os.pipe()
    os.dup2(writing, UNREAD, inheritable=False)
    os.close(reading)
    os.close(writing)


def leave_out(runs, left):
    """Gives the runs without those of these files, and those of these commands."""
    return [run for run in runs if str(run.file.relative_to(TOP)) not in left and run.command not in left]


def make_all(folder, lists, paths, is_once):
    """Makes each run twice, or once: pairs of such a job and what it gave. What names a program that is not there is not made."""
    runs = [run for each in lists for run in each]
    (first, second), absent = make_builds(folder, runs, paths)
    for name in sorted(absent & {name for run in runs for name in run.needs()}):
        print(f"stored runs: {name} is not built", file=sys.stderr)
    manners = [(second, True)] if is_once else [(first, False), (second, True)]
    lists = [each for each in lists if not any(run.needs() & absent for run in each)]
    with ThreadPoolExecutor(len(os.sched_getaffinity(0))) as pool:
        made = pool.map(lambda it: [((run, *it[1]), give(run, *it[1])) for run in it[0]], [(each, it) for each in lists for it in manners])
        return sorted(chain.from_iterable(made), key=lambda pair: runs.index(pair[0][0]))


def compare(folder, paths, is_writing, is_once, left):
    """Makes and compares the runs: whether each gave what is stored, or what is written now."""
    lists = [leave_out(each, left) for each in all_runs()]
    lists = [each for each in lists if each and (not paths or all(run.needs() <= {*paths} for run in each))]
    count = sum(map(len, lists))
    changed, same = [], 0
    for run, made in groupby(make_all(folder, lists, paths, is_once), key=lambda pair: pair[0][0]):
        made = list(made)
        wanted = made[0][1] if is_writing and (run.stored or run.kept) else run.wanted
        if wanted != run.wanted:
            changed.append((run, wanted))
        others = []
        for job, given in made:
            own = tuple(found if it is None else it for it, found in zip(wanted, given))
            if own != given:
                others.append(job)
                print(*difference(job, own, given), sep="\n", file=sys.stderr)
        same += not others
    write_anew(changed)
    print(f"stored runs: {same} of {count} gave what is stored", file=sys.stderr)
    return same == count > 0


def main(words):
    paths, left = {}, []
    for word in words:
        name, _, path = word.partition("=")
        if name == "--leave":
            left.append(path)
        elif path and name in PROGRAMS:
            paths[name] = Path(path).resolve()
        elif word not in ("--once", "--write"):
            raise Wrong("usage: .ci/stored_runs.py [NAME=PATH]... [--once] [--leave=FILE|COMMAND]... [--write]")
    os.chdir(TOP)
    open_unread()
    with TemporaryDirectory() as folder:
        return compare(Path(folder), paths, "--write" in words, "--once" in words, left)


if __name__ == "__main__":
    try:
        sys.exit(0 if main(sys.argv[1:]) else 1)
    except (Wrong, written.Wrong) as wrong:
        sys.exit(f"stored runs: {wrong}")
