#!/usr/bin/env python3
"""Draws programs of two and three jobs, makes the calls of each in every order by the rules of tests/orders/make.py, which
stand apart from the program, and compares with what `lockcheck --all` reports of it: the length of the shortest way to a
circle and to jobs that are left waiting, that the way which it shows leads there, and the answers of each line. Nothing is
merged here: a walk goes on from each order by each job that can make its next call.
The argument lockcheck=PATH names another program than the one that `rt ci` built."""
import os
import re
import subprocess
import sys
from concurrent.futures import ThreadPoolExecutor
from pathlib import Path

TOP = Path(__file__).resolve().parent.parent
sys.dont_write_bytecode = True
sys.path.insert(0, str(TOP / "tests/orders"))
from make import Queue, Request

LINES = (
    "ENQ {} 0 1 A",
    "ENQ {} 0 2 B/B",
    "ENQ {} 0 3 A/B",
    "ENQ {} 0 4 B/S/B",
    "ENQ {} 1 5 A/S/B",
    "ENQ {} 2 6 A B/B",
    "ENQ {} 3 0 A",
    "ENQ {} 3 0 B/S",
    "DEQ {} 0 A",
    "DEQ {} 1",
    "DEQ {} 2 2",
    "FREE {}",
)
"""The calls that are drawn from, each of the job whose number stands in it."""
DRAWN = [*((seed, 2, 4) for seed in range(60)), *((seed, 3, 3) for seed in range(12)), (100, 3, 4)]
"""The seed of each drawing, how many jobs there are, and how many calls each makes."""
SEEN = re.compile(r"(\d+) (.*): (.*)")
SECONDS = 60


def drawn(seed, jobs, calls):
    """The calls of each job."""
    programs = {job: [] for job in range(1, jobs + 1)}
    for job, lines in programs.items():
        for _ in range(calls):
            seed = (seed * 6364136223846793005 + 1442695040888963407) % 2**64
            lines.append(LINES[(seed >> 33) % len(LINES)].format(job))
    return programs


def copy_of(queue):
    """A queue with requests of its own."""
    copy = Queue()
    copy.requests = [Request(it.job, it.kind, it.number, it.wants) for it in queue.requests]
    return copy


class Walk:
    """What every order of the calls comes to: the least number of calls behind which there is a circle, and behind which
    jobs wait and none can make a call; and the answers of each line, by its job and position."""

    def __init__(self, programs):
        self.programs, self.circle, self.stuck, self.answers = programs, None, None, {}
        self.go_on(Queue(), dict.fromkeys(programs, 0))

    def go_on(self, queue, made):
        """Makes each call that can come next, and goes on from there."""
        count = sum(made.values())
        have = queue.have()
        waiting = {it.job for it in queue.requests if it.kind == 0 and it not in have}
        if waiting and queue.circle():
            self.circle = min(count, self.circle or count)
        able = [job for job in made if job not in waiting and made[job] < len(self.programs[job])]
        if waiting and not able:
            self.stuck = min(count, self.stuck or count)
        for job in able:
            behind, at = copy_of(queue), made[job]
            answer = behind.command(self.programs[job][at])[0]
            self.answers.setdefault((job, at), set()).add(answer)
            self.go_on(behind, {**made, job: at + 1})


def way_of(lines, head, none):
    """The jobs that a part of the report names and the calls by which they come there; none where it says so."""
    if lines[0] == none:
        del lines[0]
        return None, []
    jobs = [int(it) for it in lines.pop(0).removeprefix(head).split()]
    calls = []
    while lines and re.match("ENQ|DEQ|FREE", lines[0]):
        calls.append(lines.pop(0))
    return jobs, calls


def leads_there(programs, calls, jobs, is_circle):
    """Whether these calls, which the jobs can make in this order, leave these jobs in a circle, or waiting."""
    queue, made = Queue(), dict.fromkeys(programs, 0)
    for line in calls:
        job = int(line.split()[1])
        if made[job] == len(programs[job]) or programs[job][made[job]] != line or queue.waits(job):
            return False
        queue.command(line)
        made[job] += 1
    if is_circle:
        return queue.circle() == [str(job) for job in jobs]
    waiting = [job for job in programs if queue.waits(job)]
    return waiting == jobs and all(job in waiting or made[job] == len(programs[job]) for job in programs)


def faults(program, drawing):
    """What the report of a program says otherwise than its walk."""
    programs = drawn(*drawing)
    script = [line for lines in programs.values() for line in lines]
    ran = subprocess.run([program, "--all"], input="\n".join([*script, ""]), capture_output=True, text=True, timeout=SECONDS, check=False)
    walk, lines = Walk(programs), ran.stdout.splitlines()[1:]
    if ran.stderr or len(lines) < 2:
        return [f"{drawing}: it says {ran.stdout}{ran.stderr}"]
    found = []
    for is_circle, head, none, least in ((True, "CIRCLE", "NO CIRCLE", walk.circle), (False, "STUCK", "ALL CAN END", walk.stuck)):
        jobs, calls = way_of(lines, head, none)
        if (least is None) != (jobs is None) or jobs and least != len(calls):
            found.append(f"{drawing}: {head}: the shortest way has {least} calls and not {len(calls)}")
        elif jobs and not leads_there(programs, calls, jobs, is_circle):
            found.append(f"{drawing}: {head}: this way does not lead there: {calls}")
    calls, told = iter([(job, at) for job in programs for at in range(len(programs[job]))]), 0
    for line, key in zip(lines, calls):
        number, call, answers = SEEN.fullmatch(line).groups()
        told += 1
        wanted = walk.answers.get(key, {"no order makes it"})
        if int(number) != told or call != script[told - 1] or set(answers.split(", ")) != wanted:
            found.append(f"{drawing}: line {told}: {line}, and not {sorted(wanted)}")
    return found if told == len(script) == len(lines) else [*found, f"{drawing}: {len(script)} calls, and {len(lines)} lines: {lines}"]


def main(words):
    named = dict(word.partition("=")[::2] for word in words)
    program = os.path.abspath(named.get("lockcheck", TOP / "crates/lockcheck/out/lockcheck"))
    with ThreadPoolExecutor(os.cpu_count()) as pool:
        wrong = [it for found in pool.map(lambda drawing: faults(program, drawing), DRAWN) for it in found]
    print(*wrong, f"lockcheck walks: {len(DRAWN)} programs, {len(wrong)} faults", sep="\n", file=sys.stderr)
    return 1 if wrong else 0


if __name__ == "__main__":
    sys.exit(main(sys.argv[1:]))
