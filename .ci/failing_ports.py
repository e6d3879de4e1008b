#!/usr/bin/env python3
"""Runs programs whose input fails behind each of its bytes, whose output fails behind each byte that was written, and whose
input is cut off behind each byte. What is written has to be what the lines write that were read to their ends, or the bytes that
were taken; the status is 3 where a port failed, with a line that says which. And each line is answered before the next is sent.

The input is a socket whose other end was closed with bytes unread, so that a read fails once all that was sent is read; the
output is a file that may not grow further. The programs are those that `rt ci` built, or NAME=PATH names another."""
import os
import resource
import signal
import socket
import subprocess
import sys
import threading
from concurrent.futures import ThreadPoolExecutor
from dataclasses import dataclass
from pathlib import Path
from tempfile import TemporaryDirectory, TemporaryFile

sys.dont_write_bytecode = True
import crates

TOP = Path(__file__).resolve().parent.parent
SECONDS = 60
FAILED, REFUSED = 3, 1


@dataclass
class Example:
    """A run: its program, its lines, each with what is written once its end was read, and the lines of a source in it."""

    program: str
    words: list
    lines: list
    source: range = range(0)

    @property
    def script(self):
        return b"".join(line + b"\n" for line, _ in self.lines)

    @property
    def text(self):
        return b"".join(text for _, text in self.lines)

    def whole_lines(self, count):
        """How many lines end within so many bytes, what they write, and where the next begins."""
        text, begins = b"", 0
        for number, (line, written) in enumerate(self.lines):
            end = begins + len(line) + 1
            if count < end:
                return number, text, begins
            text, begins = text + written, end
        return len(self.lines), text, begins


def pairs(text):
    """The lines of a text, each with what is written behind it: of `LINE => TEXT` that, or nothing."""
    found = []
    for line in text.strip("\n").split("\n"):
        line, _, written = line.partition(" => ")
        found.append((line.encode(), b"".join(it.encode() + b"\n" for it in written.split(" / ") if it)))
    return found


COUNTING = Example(
    "lockmon",
    ["run"],
    pairs("""
ASSEMBLE C
 MOVEI 5,^D100
LOOP: MOVE 1,[BLK]
 ENQ. 1,
 HALT
 MOVEI 1,0
 DATRD. 1,
 HALT
 MOVE 2,1
 ADDI 2,1
 MOVEI 1,0
 DATWR. 1,
 HALT
 MOVE 1,[BLK]
 DEQ. 1,
 HALT
 SOJG 5,LOOP
 EXIT
BLK: 1,,5
 0,,7
 777777
 POINT 7,[ASCIZ /X/]
 0
 END 140
ENDASM => IMAGE C 25
LOGIN 0 C => JOB 1
LOGIN 1 C => JOB 2
START 1 => DONE
START 2 => DONE
RUN 6000 => RAN 2204 IDLE 3796
DATA 0 => 000000,,000310
"""),
    range(1, 25),
)
"""Two jobs count to 100 each, under a lock."""
HANDED_ON = Example(
    "lockmon",
    ["queue"],
    pairs("""
ENQ 1 0 1 X => OK
ENQ 2 0 2 X => WAIT
STAT 2 X => 140000,,000001 000001,,000001 000000,,000000
DEQ 1 0 X => OK / GRANT 2 2
"""),
)
"""A lock goes from one job to the next."""
TWO_WORDS = Example(
    "lockmon",
    ["asm"],
    pairs("""
 MOVEI 1,5
A: JRST A
 END A
"""),
)
"""Two words. A source is read to its end before anything is written."""
LISTED = b"000140 201040,,000005\n000141 254000,,000141\nSTART 000141\n"
SHORTER = {b"RUN 6": b"RAN 6 IDLE 0\n", b"RUN 60": b"RAN 60 IDLE 0\n", b"RUN 600": b"RAN 600 IDLE 0\n"}
"""What a line that is cut short, and is a command all the same, writes."""
LOOKED_AT = Example("ddt", [str(TOP / "examples/counter.mac")], pairs(".= => 000000,,000140\n.QUIT"))
"""A line of the debugger, and the one that ends it."""
NAME = [str(TOP / "tests/ten/one.mac")], b"ADA\n", b"NAME? HELLO ADA\n"
"""A program that asks for a name: its source, the input, and what it types out."""
TYPES = str(TOP / "tests/orders_program/types.mac")
REPORT = b"1 job, 1 state, all looked at\nNO CIRCLE\n1 END\nEND 1, 0 calls\njob 1, %b: EXIT at SAY+1\nTEXT 0 A\\r\\nB\n" % TYPES.encode()
"""A program that types a text, and the report on its orders."""


def input_of(text, fails):
    """An input with a text, behind which it ends, or fails."""
    if not fails:
        file = TemporaryFile()
        file.write(text)
        file.seek(0)
        return file
    ours, theirs = socket.socketpair(socket.AF_UNIX, socket.SOCK_STREAM)
    theirs.send(b"unread")
    ours.sendall(text)
    ours.close()
    return theirs


def ran(program, words, text, fails=False, room=None):
    """What a run writes and tells, and its status. Its input fails behind its text, or its output behind so many bytes."""

    def limit():
        if room is not None:
            signal.signal(signal.SIGXFSZ, signal.SIG_IGN)
            resource.setrlimit(resource.RLIMIT_FSIZE, (room, room))

    with TemporaryDirectory() as folder, input_of(text, fails) as given, open(f"{folder}/written", "w+b") as written:
        run = subprocess.run(
            [program, *words], stdin=given, stdout=written, stderr=subprocess.PIPE, timeout=SECONDS, check=False, preexec_fn=limit, restore_signals=False
        )
        written.seek(0)
        return written.read(), run.stderr, run.returncode


def failed_read(program):
    """The input fails behind each byte: what the lines write whose ends were read is there, and no more."""
    for it in (COUNTING, HANDED_ON, TWO_WORDS):
        for count in range(len(it.script) + 1):
            yield f"{it.words[0]}: no read behind byte {count}", (program, it.words, it.script[:count], True), (
                it.whole_lines(count)[1],
                b"lockmon: read\n",
                FAILED,
            )


def failed_write(program):
    """The output fails behind each byte: what was written before is there."""
    for it, text in ((COUNTING, COUNTING.text), (HANDED_ON, HANDED_ON.text), (TWO_WORDS, LISTED)):
        for room in range(len(text)):
            yield f"{it.words[0]}: no write behind byte {room}", (program, it.words, it.script, False, room), (
                text[:room],
                b"lockmon: write\n",
                FAILED,
            )
        yield f"{it.words[0]}: room for all", (program, it.words, it.script, False, len(text)), (text, b"", 0)


def cut_script(program):
    """The input ends behind each byte."""
    it = COUNTING
    for count in range(len(it.script)):
        lines, text, begins = it.whole_lines(count)
        last, is_source = it.script[begins:count], lines in it.source
        wanted = (text, 0)
        if it.lines[lines][0] == last and last.startswith(b"ASSEMBLE "):
            # (the source that begins here has no line any more)
            wanted = (text + b"?SCRIPT %d\n" % (lines + 2), REFUSED)
        elif it.lines[lines][0] == last and not is_source and last != b"ENDASM":
            wanted = (text + it.lines[lines][1], 0)
        elif last in SHORTER:
            wanted = (text + SHORTER[last], 0)
        elif last or is_source:
            ended = is_source and last == b"ENDASM"
            number = lines + (2 if is_source and last and not ended else 1)
            wanted = (text + (it.lines[lines][1] if ended else b"?SCRIPT %d\n" % number), 0 if ended else REFUSED)
        yield f"run: cut off behind byte {count}", (program, it.words, it.script[:count]), (wanted[0], None, wanted[1])


def failing_terminal(program):
    """`ten` whose input or output fails: what its job typed out before is there."""
    words, text, typed = NAME
    for count in range(len(text)):
        yield f"ten: no read behind byte {count}", (program, words, text[:count], True), (
            typed[:6],
            b"\njob 1, %b: waits for a line, at READ, 3 steps\nten: the input cannot be read\n" % words[0].encode(),
            FAILED,
        )
    for room in range(len(typed)):
        yield f"ten: no write behind byte {room}", (program, words, text, False, room), (typed[:room], None, FAILED)
    yield "ten: room for all", (program, words, text, False, len(typed)), (typed, None, 0)


def failed_report(program):
    """`orders` whose output fails: the report is there as far as it was taken."""
    for room in range(len(REPORT)):
        yield f"orders: no write behind byte {room}", (program, [TYPES], b"", False, room), (REPORT[:room], b"orders: write\n", FAILED)
    yield "orders: room for all", (program, [TYPES], b"", False, len(REPORT)), (REPORT, b"", 0)


def read_no_further(program):
    """Behind QUIT and behind a line that is refused nothing is read, so no read fails."""
    yield "queue: no read behind QUIT", (program, ["queue"], b"FREE 1\nQUIT\nFREE 2\n", True), (b"OK\n", b"", 0)
    yield "queue: no read behind a fault", (program, ["queue"], b"FREE 1\nFREE\nFREE 2\n", True), (b"OK\n?SCRIPT 2\n", None, REFUSED)


def answers_in_turn(name, program):
    """What is wrong where each line is sent once all that the lines before it write was read."""
    for it in (it for it in (COUNTING, HANDED_ON, LOOKED_AT) if it.program == name):
        with subprocess.Popen([program, *it.words], stdin=subprocess.PIPE, stdout=subprocess.PIPE) as run:
            clock = threading.Timer(SECONDS, run.kill)
            clock.start()
            for line, text in it.lines:
                run.stdin.write(line + b"\n")
                run.stdin.flush()
                written = run.stdout.read(len(text))
                if written != text:
                    yield f"{it.words[0]}: {line} is answered by {written}, and not by {text}, before the next line"
                    break
            clock.cancel()


CASES = {"lockmon": (failed_read, failed_write, cut_script, read_no_further), "ten": (failing_terminal,), "orders": (failed_report,), "ddt": ()}


def fault(case):
    """What is wrong with a run, if anything is."""
    name, run, wanted = case
    found = ran(*run)
    if all(it is None or it == own for it, own in zip(wanted, found)):
        return None
    return f"{name}: it gave {found}, and not {wanted}"


def main(words):
    named = dict(word.partition("=")[::2] for word in words)
    total, wrong = 0, []
    with ThreadPoolExecutor(os.cpu_count()) as pool:
        for name, made in CASES.items():
            crate = crates.crate_of(name)
            program = os.path.abspath(named.get(name, f"{TOP}/crates/{crate}/out/{crate}"))
            cases = [case for each in made for case in each(program)] if not named or name in named else []
            total += len(cases)
            wrong += [it for it in pool.map(fault, cases) if it]
            wrong += answers_in_turn(name, program) if not named or name in named else []
    print(*wrong, f"failing ports: {total - len(wrong)} of {total} runs hold", sep="\n", file=sys.stderr)
    return 1 if wrong or not total else 0


if __name__ == "__main__":
    sys.exit(main(sys.argv[1:]))
