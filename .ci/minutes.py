"""What the parts of the gate take: kept beside git's own files, shown as a table, and written into docs/MAINTAINING.md."""

import collections
import heapq
import json
import re
import subprocess

import crates

PAGE = f"{crates.TOP}/docs/MAINTAINING.md"
MARKS = "<!-- written by ./check --minutes -->", "<!-- end of what ./check --minutes writes -->"

# The head of a function.
FUNCTION = re.compile(r'^ *(?:pub(?:\([a-z]+\))? )?(?:extern "C" )?fn ', re.MULTILINE)


class Minutes:
    """The parts of the last run of the gate, each with its minutes of a processor and of the clock and the share of the
    processors that a host withheld meanwhile, and the seconds of each crate as they were last measured: what a run did
    not prove anew keeps its earlier figure."""

    def __init__(self, parts=(), seconds=()):
        self.parts, self.seconds = dict(parts), {tuple(key.split(" ", 1)): it for key, it in dict(seconds).items()}


def file():
    where = subprocess.run(["git", "rev-parse", "--absolute-git-dir"], cwd=crates.TOP, capture_output=True, text=True, check=True)
    return f"{where.stdout.strip()}/check_minutes.json"


def last():
    try:
        return Minutes(**json.loads(crates.text_of(file())))
    except (OSError, ValueError, TypeError):
        return Minutes()


def processors_of_host():
    """Gives the time that processors were at work here since the start, and the time that a host withheld from work
    that was there."""
    with open("/proc/stat", encoding="utf-8") as it:
        user, nice, system, _idle, _waits, irq, soft_irq, withheld = map(int, it.readline().split()[1:9])
    return user + nice + system + irq + soft_irq, withheld


def share_withheld(before, after):
    """Gives the share that a host withheld of what was asked for between two looks."""
    used, withheld = (later - earlier for earlier, later in zip(before, after, strict=True))
    return withheld / max(1, used + withheld)


def keep(took, seconds):
    """Keeps what a run took, and gives its table."""
    known = last()
    known.parts = {name: figures for name, *figures in took}
    proved = {crate for crate, kind in seconds if kind == "proof"}
    known.seconds = {key: it for key, it in known.seconds.items() if key[0] not in proved} | dict(seconds)
    with open(file(), "w", encoding="utf-8") as to:
        json.dump({"parts": known.parts, "seconds": {" ".join(key): it for key, it in known.seconds.items()}}, to)
    return table(known.parts, seconds)


def kinds(seconds):
    """Gives minutes of a processor by the kinds of a process, in words."""
    found = collections.Counter()
    for (_, kind), it in seconds.items():
        found[kind] += it / 60
    return found


def table(parts, seconds):
    """Gives the table of a run: what was done in it, and what was kept from an earlier one costs nothing."""
    lines = [f"{'part':<40}{'processor':>10}{'clock':>8}{'withheld':>10}   (minutes; the share that a host withheld)"]
    for name, (processor, clock, withheld) in parts.items():
        lines.append(f"{name:<40}{processor:>10.1f}{clock:>8.1f}{withheld:>10.0%}")
        if name == "rt ci":
            lines += [f"{'  ' + kind:<40}{it:>10.1f}" for kind, it in sorted(kinds(seconds).items())]
    processor, clock, _ = map(sum, zip(*parts.values(), strict=True))
    return "\n".join([*lines, f"{'all':<40}{processor:>10.1f}{clock:>8.1f}"])


def lines_in(crate, part, end):
    """Gives how many lines the files of a folder of the crate have."""
    return sum(crates.text_of(it).count("\n") for it in crates.files_of(crate) if f"/{crate}/{part}/" in it and it.endswith(end))


def functions_in(crate):
    sources = [crates.text_of(it) for it in crates.files_of(crate) if it.endswith(".rt")]
    return sum(len(FUNCTION.findall(it)) for it in sources)


def row(crate, seconds):
    """Gives the row of a crate in the page's table."""
    own = kinds({key: it for key, it in seconds.items() if key[0] == crate})
    minutes = [own["proof"], own["tests"], own["build"]]
    shown = [f"{it:.1f}" if it >= 0.05 else "" for it in minutes]
    sizes = [functions_in(crate), *(lines_in(crate, *it) for it in (("src", ".rt"), ("specs", ".antt"), ("proofs", ".antt")))]
    return sum(minutes), f"| `{crate}` | {' | '.join(shown)} | {' | '.join(f'{it:,}' if it else '' for it in sizes)} |"


def longest_chain(seconds):
    """Gives the chain of crates that takes longest to prove, each of which waits for the one before it, and its
    minutes of a processor."""
    best = {}
    for crate in sorted(crates.libraries(), key=lambda it: len(crates.below(it))):
        took = max(seconds.get((crate, "proof"), 0) + seconds.get((crate, "build"), 0), seconds.get((crate, "tests"), 0))
        before = max((best[it] for it in crates.libraries()[crate] if it in best), default=(0, []))
        best[crate] = before[0] + took / 60, [*before[1], crate]
    return max(best.values())


def works(seconds):
    """Gives the pieces of work of `rt ci`, each with its crate and its seconds: a proof with its builds, and one with
    tests."""
    for crate in crates.libraries():
        yield "proof", crate, seconds.get((crate, "proof"), 0) + seconds.get((crate, "build"), 0)
        if crates.has_tests(crate):
            yield "tests", crate, seconds.get((crate, "tests"), 0)


def laid_over(processors, seconds, program=None):
    """Gives the minutes that the proofs take on so many processors that are there all the time, laid as `rt ci` lays
    them: of the work whose libraries are there, that one first which has the longest chain before it. With a program,
    those alone that its first start proves."""
    needed = {program, *crates.below(program)} if program else {}
    pending = [it for it in works(seconds) if not program or it[0] == "proof" and it[1] in needed]
    own = {crate: took for kind, crate, took in pending if kind == "proof"}
    ahead = {}
    for crate in sorted(own, key=lambda it: len(crates.below(it)), reverse=True):
        users = [it for it in own if crate in crates.libraries()[it]]
        ahead[crate] = own[crate] + max((ahead[it] for it in users), default=0)
    pending.sort(key=lambda it: it[2] if it[0] == "tests" else ahead[it[1]], reverse=True)
    now, busy, proved = 0, [], set()
    while pending or busy:
        ready = next((it for it in pending if proved.issuperset(crates.below(it[1]))), None)
        if ready and len(busy) < processors:
            pending.remove(ready)
            heapq.heappush(busy, (now + ready[2], ready[:2]))
            continue
        now, (kind, crate) = heapq.heappop(busy)
        if kind == "proof":
            proved.add(crate)
    return now / 60


def write():
    """Writes the tables of docs/MAINTAINING.md: the parts of the last run, and each crate."""
    known = last()
    rows = sorted((row(it, known.seconds) for it in crates.libraries()), reverse=True)
    lines = []
    if known.parts:
        lines += ["| Part of the last gate here | Processor | Clock | Withheld by the host |", "|---|---|---|---|"]
        lines += [f"| `{name}` | {own:.1f} | {clock:.1f} | {withheld:.0%} |" for name, (own, clock, withheld) in known.parts.items()]
        processor, clock, _ = map(sum, zip(*known.parts.values(), strict=True))
        lines += [f"| all | {processor:.1f} | {clock:.1f} | |", ""]
    lines += ["| Of `rt ci`, where nothing is kept | Processor |", "|---|---|"]
    lines += [f"| {kind} | {it:.1f} |" for kind, it in sorted(kinds(known.seconds).items())]
    chain, names = longest_chain(known.seconds)
    lines += ["", f"The longest chain of proofs takes {chain:.1f} minutes: {', '.join(f'`{it}`' for it in names)}."]
    two, four = laid_over(2, known.seconds), laid_over(4, known.seconds)
    lines += ["", f"Laid over two processors that are there all the time, the proofs that have minutes below take {two:.0f} minutes; over four, {four:.0f}."]
    one, two, four = (laid_over(it, known.seconds, "lockmon") for it in (1, 2, 4))
    lines += ["", f"Those that the first start of `lockmon` makes take {one:.0f} minutes of a processor; laid over two, {two:.0f}; over four, {four:.0f}."]
    lines += ["", "| Crate | Proof | Tests | Builds | Functions | Code | Definitions | Proofs |", "|---|" + 7 * "---|"]
    page = crates.text_of(PAGE)
    before, _, rest = page.partition(MARKS[0])
    behind = rest.partition(MARKS[1])[2]
    with open(PAGE, "w", encoding="utf-8") as to:
        to.write("\n".join([before + MARKS[0], "", *lines, *[it for _, it in rows], "", MARKS[1] + behind]))
    return 0
