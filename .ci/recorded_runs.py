#!/usr/bin/env python3
"""Records each stored run of `ten` (tests/ten/*.runs) by --record, has `lockmon run` obey the script that this writes, and
compares: nothing is refused there, each terminal line gets the same text, as many steps are made, and the jobs stand as
`ten` said. So for each stored session of `ddt` (examples/*.ddt, tests/ddt/*.ddt), at its end, by `.RECORD`: there the
registers, the first words of core, the requests, the waits, and what was not taken yet are compared as well. The words
ten=PATH, ddt=PATH and lockmon=PATH name other programs than those that `rt ci` built, and --leave=COMMAND leaves out a run."""
import re
import subprocess
import sys
from pathlib import Path
from tempfile import TemporaryDirectory

import stored_runs
from stored_runs import TOP, Wrong

SPELLED = re.compile(rb"\\(?:([nre\\])|([0-7]{3}))")
LETTERS = {b"n": b"\n", b"r": b"\r", b"e": b"\33", b"\\": b"\\"}
END = re.compile(r"job (\d+), (.*): (.*?)(?: at \S+| at \[.*\])?, (\d+) steps?")
STOPS = {"EXIT": "STOP 6", "EXIT 1": "STOP 7", "HALT": "STOP 3", "still runs": "RUN", "stopped by CTRL-C": "STOP 8"}
"""How `SHOW JOBS` of `lockmon run` says what `ten` says of a job's end, where it says it in so many words."""


def plain(text):
    """The characters that a text of TAKE spells."""
    return SPELLED.sub(lambda it: LETTERS[it[1]] if it[1] else bytes([int(it[2], 8)]), text)


def commands_of(script):
    """The commands of a script, without comments, and with ENDASM for each source."""
    is_source = False
    for line in script.split(b"\n"):
        if is_source:
            is_source = line.rstrip(b"\r") != b"ENDASM"
            if not is_source:
                yield b"ENDASM"
        elif line.startswith(b"ASSEMBLE "):
            is_source = True
        elif line and not line.startswith(b";"):
            yield line


def obeyed(script, answers):
    """What a script came to by its answers: the texts of each line, the steps, and how the jobs stand."""
    texts, steps, jobs = {}, 0, {}
    lines = iter(answers.split(b"\n")[:-1])
    wanted = {b"ENDASM": b"IMAGE ", b"LOGIN": b"JOB ", b"RUN": b"RAN ", b"STEP": b"RAN ", b"TAKE": b"TEXT"}
    for command in commands_of(script):
        name, _, rest = command.partition(b" ")
        if name == b"SHOW":
            for line in lines:
                found = re.fullmatch(rb"JOB (\d+) LINE \d+ BLOCKS \d+ PC [0-7]+ (.*)", line)
                if found:
                    jobs[int(found[1])] = found[2].decode()
                if line == b"END" or line.startswith(b"CIRCLE"):
                    break
            continue
        answer = next(lines, b"no answer")
        if not answer.startswith(wanted.get(name, b"DONE")):
            raise Wrong(f"{command.decode()} is answered by {answer.decode()}")
        if name == b"TAKE":
            line = int(rest)
            texts[line] = texts.get(line, b"") + plain(answer.removeprefix(b"TEXT").removeprefix(b" "))
        elif wanted.get(name) == b"RAN ":
            steps += int(answer.split()[1])
    return texts, steps, jobs


def texts_of(written, is_numbered):
    """What `ten` wrote of each terminal line. With several its lines are cut, so line feeds are left out."""
    if not is_numbered:
        return {0: written} if written else {}
    texts = {}
    for line in written.split(b"\n")[:-1]:
        number, _, text = line.partition(b": ")
        texts[int(number)] = texts.get(int(number), b"") + text
    return {line: text for line, text in texts.items() if text}


def compare(folder, ten, lockmon, run):
    """Whether a run could be recorded; what was obeyed is then as it was."""
    words = run.command.removeprefix("ten ").replace("--echo ", "")
    file = folder / "recorded.run"
    file.unlink(missing_ok=True)
    there = folder / run.file.parent.name
    made = subprocess.run(["sh", "-c", f'exec "$0" --record "$1" {words}', ten, file], cwd=there, input=run.texts[">"],
                          capture_output=True, timeout=stored_runs.SECONDS)
    if not file.is_file():
        return False
    script = file.read_bytes()
    head = script.split(b"\n")[0].decode().split()
    if head[:3] != [";", "lockmon", "run"]:
        raise Wrong("the script does not say what obeys it")
    answers = subprocess.run([lockmon, *head[2:]], input=script, capture_output=True, timeout=stored_runs.SECONDS)
    if answers.returncode:
        raise Wrong(f"lockmon refuses the script: {answers.stderr.decode()}")
    texts, steps, jobs = obeyed(script, answers.stdout)
    is_numbered = script.count(b"\nLOGIN ") > 1
    if is_numbered:
        texts = {line: text.replace(b"\n", b"") for line, text in texts.items() if text.strip(b"\n")}
    if texts != texts_of(made.stdout, is_numbered):
        raise Wrong(f"the texts are {texts}, and were {texts_of(made.stdout, is_numbered)}")
    ends = [END.fullmatch(line) for line in made.stderr.decode().split("\n")]
    ends = [it for it in ends if it]
    if steps != sum(int(it[4]) for it in ends):
        raise Wrong(f"{steps} steps were made, and {[it[0] for it in ends]} before")
    for it in ends:
        if jobs.get(int(it[1])) != STOPS.get(it[3], jobs.get(int(it[1]))) or (it[3] == "LOGOUT") != (int(it[1]) not in jobs):
            raise Wrong(f"{it[0]}: and in the script {jobs.get(int(it[1]))}")
    return True


MARK = b"U MARK\n"
"""What `ddt` answers to a symbol that is not defined, which changes nothing: it ends each answer."""
WORD = re.compile(rb"/ ([0-7]{6},,[0-7]{6})")
PLACES = [*range(0o20), *range(0o140, 0o240)]
REFUSALS = ("words were deposited", "a job was started at a place", "an instruction was executed by hand", "a script has no core images")


def shown(texts, is_numbered):
    """What `.TAKE` shows of the texts of the terminal lines."""
    parts = []
    for line, text in enumerate(texts):
        if text:
            parts += [b"line %d:\n" % line] * is_numbered + [text, b"\n" * (not text.endswith(b"\n"))]
    return b"".join(parts) or b"nothing was typed out\n"


def answers_of(ddt, folder, words, lines):
    """What `ddt` answers to each of some lines."""
    text = b"".join(line + b"\nMARK/\n" for line in lines)
    made = subprocess.run([ddt, *words], cwd=folder, input=text, capture_output=True, timeout=stored_runs.SECONDS)
    answers = made.stdout.split(MARK)[:-1]
    if made.returncode or len(answers) != len(lines):
        raise Wrong(f"ddt: status {made.returncode}, {len(answers)} answers to {len(lines)} lines")
    return answers


def compare_session(folder, ddt, lockmon, session):
    """Whether a session could be recorded at its end; what was obeyed is then as it was there."""
    file = folder / "recorded.run"
    file.unlink(missing_ok=True)
    lines = session.read_bytes().split(b"\n")[:-1]
    lines = lines[: lines.index(b".QUIT")] if b".QUIT" in lines else lines
    words = re.match(rb"; ddt (.*?): ", lines[0])[1].decode().split()
    jobs = range(1, 1 + sum(Path(word).suffix in ("", ".mac", ".sav") and (folder / word).exists() for word in words))
    looks = [b"$C"] + [look for job in jobs for look in (b".JOB %d" % job, b".EX 0-17", b".EX 140-237")]
    tail = [b".RECORD recorded.run", b".TAKE", *looks, b".LOCKS", b".WAITS", b".JOBS"]
    answers = answers_of(ddt, folder, words, lines + tail)
    refusal, untaken, *looked, locks, waits, ends = answers[len(lines):]
    if refusal:
        if file.exists() or not any(it in refusal.decode() for it in REFUSALS):
            raise Wrong(f"it is not recorded: {refusal.decode()}")
        return False
    script = file.read_bytes()
    head = script.split(b"\n")[0].decode().split()
    more = [b"TAKE %d" % (job - 1) for job in jobs] + [b"EXAMINE %d %o" % (job, place) for job in jobs for place in PLACES]
    first, whole = (
        subprocess.run([lockmon, *head[2:]], input=text, capture_output=True, timeout=stored_runs.SECONDS).stdout
        for text in (script, script + b"\n".join(more) + b"\nSHOW LOCKS\nSHOW WAITS\n")
    )
    rest = whole.removeprefix(first).split(b"\n")
    texts = [plain(line.removeprefix(b"TEXT").removeprefix(b" ")) for line in rest[: len(jobs)]]
    for what, is_so, was in (
        ("not taken yet", shown(texts, len(jobs) > 1), untaken),
        ("in core", WORD.findall(b"\n".join(rest[len(jobs) : len(more)])), WORD.findall(b"".join(looked))),
        ("locks and waits", b"\n".join(rest[len(more) :]), locks + waits),
    ):
        if is_so != was:
            raise Wrong(f"{what} is {is_so}, and was {was}")
    obeyed(script, first)
    rounds, steps, ticks = (sum(map(int, re.findall(rb"^%s (\d+)$" % name, script.split(b"\nLOGIN ")[-1], re.M)))
                            for name in (b"RUN", b"STEP", b"TICK"))
    if b"steps %d, ticks %d" % (rounds + steps, rounds + ticks) not in ends:
        raise Wrong(f"{rounds} rounds, {steps} steps and {ticks} ticks, and before: {ends.decode()}")
    if len(jobs) == 1 and not any(line.upper().startswith(b".BACK") for line in lines):
        were = b"".join(answers[at] for at, line in enumerate(lines) if line == b".TAKE").replace(shown([], False), b"")
        taken = re.findall(rb"^TEXT (.*)$", first, re.M)
        if b"".join(shown([plain(text)], False) for text in taken) != were:
            raise Wrong(f"the texts are {taken}, and were {were}")
    return True


def sessions(ddt, lockmon):
    """How many of the stored sessions could be recorded; none where one did not come out the same."""
    recorded, is_right = 0, True
    with TemporaryDirectory() as folder:
        folder = Path(folder)
        for file in [*TOP.glob("examples/*"), *TOP.glob("tests/ddt/*")]:
            if file.suffix not in (".out", ".runs"):
                (folder / file.name).symlink_to(file)
        for session in sorted([*TOP.glob("examples/*.ddt"), *TOP.glob("tests/ddt/*.ddt")]):
            try:
                recorded += compare_session(folder, ddt, lockmon, session)
            except Wrong as wrong:
                is_right = False
                print(f"{session.relative_to(TOP)}: {wrong}", file=sys.stderr)
    return recorded * is_right


def main(words):
    paths, left = {name: TOP / "crates" / name / "out" / name for name in ("ten", "ddt", "lockmon")}, []
    for word in words:
        name, _, path = word.partition("=")
        if name == "--leave":
            left.append(path)
        elif name in paths and path:
            paths[name] = Path(path).resolve()
        else:
            raise Wrong("usage: .ci/recorded_runs.py [ten=PATH] [ddt=PATH] [lockmon=PATH] [--leave=COMMAND]...")
    stored_runs.open_unread()
    recorded, is_right = 0, True
    with TemporaryDirectory() as folder:
        folder = Path(folder)
        stored_runs.furnish(folder / "ten", TOP / "tests/ten")
        runs = [run for file in sorted(TOP.glob("tests/ten/*.runs")) for run in stored_runs.runs_of(file)]
        for run in stored_runs.leave_out(runs, left):
            if not run.command.startswith("ten ") or re.search(r"[<>]|--record", run.command):
                continue
            try:
                recorded += compare(folder, paths["ten"], paths["lockmon"], run)
            except Wrong as wrong:
                is_right = False
                print(f"{run.file.relative_to(TOP)}:{run.line}: $ {run.command}: {wrong}", file=sys.stderr)
    held = sessions(paths["ddt"], paths["lockmon"])
    is_right &= held > 0
    print(f"recorded runs: {recorded} and {held} sessions were recorded" + " and came out the same" * is_right, file=sys.stderr)
    return is_right and recorded > 0


if __name__ == "__main__":
    try:
        sys.exit(0 if main(sys.argv[1:]) else 1)
    except Wrong as wrong:
        sys.exit(f"recorded runs: {wrong}")
