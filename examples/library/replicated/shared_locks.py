"""Locks on which several machines agree: each client has a table, and all tables are handed the same calls in the same order.

    locks = SharedLocks(["10.0.0.1:2379", "10.0.0.2:2379", "10.0.0.3:2379"])
    token = locks.lock(Lock("LEDGER"))
    ...                                     # whatever is written to is given the token, and refuses one below the last
    locks.unlock(Lock("LEDGER"))

An etcd cluster keeps the order, also if a minority of its nodes is lost. Each call of the table is proved to be a function of
the list of requests, so all tables come to the same list, and nobody has to be asked who owns what. A client lives as long
as its lease. Its end is an entry as well, at which all tables release its locks."""

import itertools
import json
import threading
import time
import uuid

from etcd_log import Gone, Log, Shortened, Unreachable
from hirvodas_locks import JOBS, OK, WAITS, Lock, Locks, Refused


class Full(Exception):
    """There are 63 clients."""


class TooLate(Exception):
    """The limit of a wait came before the grant."""


def spelled(locks):
    return [bytes(it).hex() for it in locks]


def locks_of(words):
    return [Lock.from_buffer_copy(bytes.fromhex(it)) for it in words]


class SharedLocks:
    """A client of the locks under a prefix. One thread at a time uses it.

    Each call raises `Gone` if the client's lease has ended, and `Unreachable` if the cluster was not reached for `PATIENCE`
    seconds: then the client owns nothing that it could rely on, and has to `join` again. `told` is called with each entry that
    the table is handed: its revision, the job, the call, the code and the grants; and with each list that the table begins with."""

    def __init__(self, nodes, prefix="/locks/", lease=5, library=None, told=lambda *words: None):
        self._nodes, self._prefix, self._seconds, self._library, self._told = nodes, prefix, lease, library, told
        self._log, self._changed, self._closed = Log(nodes, prefix), threading.Condition(), False
        self._table, self._jobs, self._revision = None, {}, 0
        self._client, self._lease, self._answers, self._granted, self._over = None, None, {}, {}, None
        threading.Thread(target=self._follow, daemon=True).start()
        self.join()

    # ---- for the caller

    def join(self):
        """Begins as another client, which owns nothing."""
        if self._lease:
            self._log.revoke(self._lease)
        with self._changed:
            self._client, self._numbers, self._answers, self._granted, self._over = uuid.uuid4().hex, itertools.count(1), {}, {}, None
        self._lease = self._log.lease(self._seconds)
        self._log.live(self._client, self._lease)
        threading.Thread(target=self._live, args=(self._client, self._lease), daemon=True).start()
        if self._call("join") != OK:
            self.close()
            raise Full

    def lock(self, *locks, id=1, limit=None):
        """Waits until all these locks are owned, for `limit` seconds at most, and gives the fencing token: the revision of the
        entry that granted them."""
        if self._call("enqueue", id, *spelled(locks)) == WAITS and not self._wait(lambda: id in self._granted, limit):
            self._call("withdraw")
            if id not in self._granted:
                raise TooLate
        return self._granted.pop(id)

    def unlock(self, *locks):
        """Gives these locks up."""
        self._call("dequeue", *spelled(locks))

    def shorten(self):
        """Writes the list of requests into the log, so that entries which led to it can be deleted."""
        with self._changed:
            requests = [[it.job, it.id, *spelled(locks)] for it, locks in self._table.requests()]
            revision, text = self._revision, json.dumps([self._jobs, requests])
        self._log.shorten(revision, text)

    def close(self):
        """Ends the client's life: its locks are released."""
        self._closed = True
        self._end(Gone)
        self._log.revoke(self._lease)

    # ---- calls

    def _call(self, what, *words):
        """Adds a call to the log, and gives its code when this table is there."""
        number = str(next(self._numbers))
        if self._over:
            raise self._over
        try:
            self._send(f"{self._client}/{number}", json.dumps([what, *words]))
        except (Gone, Unreachable) as why:
            self._end(type(why))
            raise
        self._wait(lambda: number in self._answers)
        code = self._answers.pop(number)
        if code not in (OK, WAITS, Full):
            raise Refused(code)
        return code

    def _send(self, name, text):
        self._log.append(name, text, self._client)

    def _wait(self, is_so, limit=None):
        """Waits until this is so, or the limit is over. Whether it is so."""
        until = time.monotonic() + limit if limit else float("inf")
        with self._changed:
            while not is_so() and time.monotonic() < until:
                if self._over:
                    raise self._over
                self._changed.wait(min(1, max(0, until - time.monotonic())))
            return is_so()

    def _end(self, why, client=None):
        """Has each later call say why, until the client joins again. (It may have done so already, if it is named.)"""
        with self._changed:
            if client in (None, self._client):
                self._over = self._over or why
            self._changed.notify_all()

    def _live(self, client, lease):
        """Keeps the lease."""
        log = Log(self._nodes, self._prefix)
        while client == self._client and not self._over:
            try:
                if not log.keep(lease):
                    self._end(Gone, client)
            except Unreachable:
                self._end(Unreachable, client)
            time.sleep(self._seconds / 3)

    # ---- the table

    def _follow(self):
        """Hands each entry of the log to the table, in order: the same for every client."""
        log, ends = Log(self._nodes, self._prefix), Log(self._nodes, self._prefix)
        try:
            while not self._closed:
                try:
                    for revision, name, value in log.events(self._begin(*log.list()), lambda: list(self._jobs)):
                        if self._closed:
                            break
                        if revision:
                            self._obey(revision, *name.split("/"), *json.loads(value))
                        else:
                            ends.append(f"{name}/end", '["end"]')
                except Shortened:
                    self._end(Gone)
                except Unreachable:
                    pass
        finally:
            self._end(Gone)

    def _begin(self, revision, _deleted, text, _written):
        """Begins with a list: what is read of a request can be asked for again. Gives the revision that it stands for."""
        with self._changed:
            if self._table:
                self._table.close()
            self._table, self._revision = Locks(self._library), revision
            self._jobs, requests = json.loads(text) if text else ({}, [])
            for job, id, *words in requests:
                self._table.enqueue(job, id, *locks_of(words))
            self._told(revision, None, "list", requests, OK, [])
        return revision

    def _obey(self, revision, client, number, what, *words):
        """Hands an entry to the table. A client's calls have rising numbers, so that one which was sent again does nothing."""
        with self._changed:
            self._revision = revision
            job, last = self._jobs.get(client, (0, 0))
            if what == "join" and not job:
                job = self._free_job()
            elif what != "end" and int(number) <= last:
                return
            if what == "end":
                self._jobs.pop(client, None)
            elif job:
                self._jobs[client] = job, int(number)
            code = self._made(job, what, words) if job else Full
            granted = self._table.granted if job else []
            if client == self._client:
                self._answers[number] = code
                if what == "enqueue" and code == OK:
                    self._granted[words[0]] = revision
                elif what == "end":
                    self._end(Gone)
            own, _ = self._jobs.get(self._client, (0, 0))
            self._granted.update({id: revision for it, id in granted if it == own})
            if job:
                self._told(revision, job, what, words, code, granted)
            self._changed.notify_all()

    def _free_job(self):
        """Gives the least number that no client has, or 0."""
        taken = [job for job, _ in self._jobs.values()]
        return next((it for it in range(1, JOBS + 1) if it not in taken), 0)

    def _made(self, job, what, words):
        """Has the table make a call, and gives its code."""
        table = self._table
        try:
            if what == "enqueue":
                return table.enqueue(job, words[0], *locks_of(words[1:]))
            if what == "dequeue":
                return table.dequeue(job, *locks_of(words))
            if what == "withdraw":
                return table.withdraw(job)
            return table.release(job)
        except Refused as refusal:
            return refusal.code
