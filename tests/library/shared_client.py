"""A client of the shared locks, for .ci/replicated.py: shared_client.py NODES LIBRARY FOLDER NUMBER [--own-clock]

It takes turns at a store, and obeys the words that it reads: `shorten`, `again` (send calls once more), `die` and `stop` (by a
signal, while it owns the lock) and `end`. It tells its turns and what became of it, a line each, and records each entry that
its table is handed, as a line of `lockmon queue` with the answer."""

import fcntl
import os
import random
import signal
import sys
import threading
import time

from etcd_log import Gone, Log, Unreachable
from hirvodas_locks import BUSY, NOT_PRESENT, OK, WAITS, Lock, Refused
from shared_locks import SharedLocks, TooLate, locks_of

LEASE = 5
ANSWERS = {OK: "OK", WAITS: "WAIT", BUSY: "BUSY"}


class Stale(Exception):
    """The store has seen a later token."""


class Store:
    """A number in a file, with the greatest token that came with a request: one with a smaller token is refused."""

    def __init__(self, path):
        self._path = path

    def _served(self, token, number=None):
        with open(self._path, "r+", encoding="utf-8") as file:
            fcntl.flock(file, fcntl.LOCK_EX)
            now, seen = map(int, file.read().split())
            if token < seen:
                raise Stale
            file.seek(0)
            file.write(f"{now if number is None else number} {token}\n")
            return now

    def read(self, token):
        return self._served(token)

    def write(self, token, number):
        self._served(token, number)


def line_of(lock):
    """Gives a lock as a line of `lockmon queue` spells it."""
    return bytes(lock.name)[: lock.length].decode() + "/S" * (lock.flags & 1) + f"/L{lock.level}" * bool(lock.level)


class Recorded(SharedLocks):
    """Records what the table is handed, and sends each fifth call twice."""

    def __init__(self, nodes, library, record):
        self._record, self._segment, self._size, self.sent = record, 0, 0, []
        super().__init__(nodes, lease=LEASE, library=library, told=self._tell)

    def _send(self, name, text):
        self.sent.append((self._client, name, text))
        for _ in range(2 if random.random() < 0.2 else 1):
            super()._send(name, text)

    def send_again(self):
        """Sends the calls of this life once more, from the first on."""
        for client, name, text in self.sent:
            if client == self._client:
                super()._send(name, text)

    def _tell(self, revision, job, what, words, code, granted):
        if what == "list":
            self._segment += 1
            owners = [it.flags & 1 for it, _ in self._table.requests()]
            for (owner, id, *locks), owns in zip(words, owners):
                self._line(0, f"ENQ {owner} 0 {id} {' '.join(map(line_of, locks_of(locks)))}", OK if owns else WAITS, [])
        elif what == "enqueue":
            self._line(revision, f"ENQ {job} 0 {words[0]} {' '.join(map(line_of, locks_of(words[1:])))}", code, granted)
        elif what == "dequeue":
            self._line(revision, f"DEQ {job} 0 {' '.join(map(line_of, locks_of(words)))}", code, granted)
        elif what != "withdraw" or len(self._table) < self._size:
            # (`lockmon queue` has no command for a withdrawal; a job has one request here, so its release is the same)
            self._line(revision, f"FREE {job}", code, granted)
        self._size = len(self._table)

    def _line(self, revision, command, code, granted):
        answer = "|".join([ANSWERS.get(code, f"CODE {code}"), *(f"GRANT {job} {id}" for job, id in granted)])
        with open(f"{self._record}.{self._segment}", "a", encoding="utf-8") as file:
            file.write(f"{revision}\t{command}\t{answer}\n")


class OwnClock(Recorded):
    """What must not be done: each table releases a client when its own clock says that the client's lease is over."""

    def __init__(self, *words):
        threading.Thread(target=self._watch_clock, args=(Log(words[0], "/locks/"),), daemon=True).start()
        super().__init__(*words)

    def _obey(self, revision, client, number, what, *words):
        if what != "end":
            super()._obey(revision, client, number, what, *words)

    def _watch_clock(self, log):
        ends = {}
        while True:
            time.sleep(random.uniform(0.2, 0.4))
            try:
                for it in log._ask("/v3/kv/range", {**log._below("alive/")}).get("kvs", []):
                    left = log._ask("/v3/lease/timetolive", {"ID": it["lease"]}).get("TTL", 0)
                    ends[log._entry(it | {"value": ""})[1].rpartition("/")[2]] = time.monotonic() + int(left)
            except (Gone, Unreachable):
                pass
            for client, end in list(ends.items()):
                if time.monotonic() > end and client in self._jobs:
                    super()._obey(self._revision, client, "end", "end")


class Client:
    """Takes turns until it is told to end."""

    def __init__(self, locks, store):
        self._locks, self._store, self._word = locks, store, None
        threading.Thread(target=self._read, daemon=True).start()

    def _read(self):
        for line in sys.stdin:
            self._word = line.strip()

    def _tell(self, *words):
        print(*words, flush=True)

    def _turn(self):
        """Adds 1 to the store's number, under the lock."""
        if random.random() < 0.15:
            both = Lock("A", shared=True, level=1), Lock("B", level=2)
            self._locks.lock(*both)
            self._locks.unlock(*both)
            return
        limit = 0.05 if random.random() < 0.15 else None
        try:
            token = self._locks.lock(Lock("FILE"), limit=limit)
        except TooLate:
            self._tell("late")
            return
        number = self._store.read(token)
        time.sleep(0.002)
        if self._word in ("die", "stop"):
            word, self._word = self._word, None
            os.kill(os.getpid(), signal.SIGKILL if word == "die" else signal.SIGSTOP)
        try:
            self._store.write(token, number + 1)
            self._tell("turn", token)
        except Stale:
            self._tell("refused", token)
        self._locks.unlock(Lock("FILE"))

    def _obey(self):
        word, self._word = self._word, None
        if word == "shorten":
            self._locks.shorten()
        elif word == "again":
            self._locks.send_again()
        self._tell("done", word)

    def run(self):
        self._tell("joined")
        while self._word != "end":
            try:
                if self._word in ("shorten", "again"):
                    self._obey()
                self._turn()
            except (Gone, Unreachable) as why:
                self._join_again(type(why).__name__.lower())
            except Refused as refusal:
                # (of a call that was sent when the client was released already, in a table that has a clock of its own)
                self._tell("odd", refusal.code)
                self._join_again("odd")
        self._locks.close()
        self._tell("ended")

    def _join_again(self, why):
        self._tell(why)
        while True:
            try:
                self._locks.join()
                self._tell("joined")
                return
            except (Gone, Unreachable):
                self._tell("tries")


def main(nodes, library, folder, number, *options):
    kind = OwnClock if options else Recorded
    Client(kind(nodes.split(","), library, f"{folder}/record.{number}"), Store(f"{folder}/store")).run()


if __name__ == "__main__":
    main(*sys.argv[1:])
