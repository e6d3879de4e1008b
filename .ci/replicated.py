#!/usr/bin/env python3
"""Tries the locks of several machines (examples/library/replicated) over a cluster of three nodes, with faults.

.ci/replicated.py              all of it runs on this machine, on its loopback interface, and ends within two minutes
.ci/replicated.py --own-clock  the same with tables that release a client by their own clock: this has to fail
.ci/replicated.py --figures    turns a second, beside etcd's own locks

    lockmon=PATH        replays the records by this `lockmon`, and not by the one that `rt ci` built

It needs `etcd`. Nodes and clients are processes of their own. Faults: the leading node is killed, two of three nodes are
killed; a client is killed and another is stopped while it owns the lock; calls are sent twice, also when the log has been
shortened since. In the end nothing that was counted under the lock is lost, all tables were handed the same calls in the same
order, and `lockmon queue` gives the same answers and grants to each client's list of calls."""

import json
import os
import shutil
import signal
import socket
import subprocess
import sys
import tempfile
import threading
import time
import urllib.request
from pathlib import Path

sys.dont_write_bytecode = True
import library
from library import EXAMPLES, HEADERS, TESTS, TOP, Failed

REPLICATED = EXAMPLES / "replicated"
CLIENT = TESTS / "shared_client.py"

# The whole test, and one step of it, may take so many seconds.
SECONDS = 110
PATIENCE = 25

# Within so many seconds a client is told that the cluster cannot be reached. (It keeps its lease each 5 / 3 seconds, tries for 5
# seconds, and waits for a node for at most 2.)
TOLD_WITHIN = 10
CLIENTS = 6
ENOUGH = 20


def free_port():
    with socket.socket() as it:
        it.bind(("127.0.0.1", 0))
        return it.getsockname()[1]


class Cluster:
    """Three nodes of etcd."""

    def __init__(self, room):
        self.room = room
        ports = [(free_port(), free_port()) for _ in range(3)]
        everyone = ",".join(f"n{i}=http://127.0.0.1:{peer}" for i, (_, peer) in enumerate(ports))
        self.nodes = [f"127.0.0.1:{port}" for port, _ in ports]
        self.words = []
        for i, (port, peer) in enumerate(ports):
            words = ["etcd", "--name", f"n{i}", "--data-dir", f"{room}/n{i}", "--initial-cluster", everyone, "--logger", "zap", "--log-level", "error"]
            for it, at in (("client", port), ("peer", peer)):
                words += [f"--listen-{it}-urls", f"http://127.0.0.1:{at}"]
            words += ["--advertise-client-urls", f"http://127.0.0.1:{port}", "--initial-advertise-peer-urls", f"http://127.0.0.1:{peer}"]
            self.words.append(words)
        self.running = [self.started(i) for i in range(3)]

    def started(self, i):
        with open(f"{self.room}/n{i}.log", "ab") as log:
            return subprocess.Popen(self.words[i], stdin=subprocess.DEVNULL, stdout=log, stderr=log)

    def start(self, i):
        self.running[i] = self.started(i)

    def kill(self, i):
        self.running[i].kill()
        self.running[i].wait()

    def ask(self, i, path, body):
        with urllib.request.urlopen(urllib.request.Request(f"http://{self.nodes[i]}{path}", json.dumps(body).encode()), timeout=2) as answer:
            return json.load(answer)

    def status(self, i):
        """Gives what a node says of itself, or nothing."""
        try:
            return self.ask(i, "/v3/maintenance/status", {})
        except (OSError, ValueError):
            return {}

    def are_up(self):
        return all(it and int(it.get("leader", 0)) for it in map(self.status, range(3)))

    def leader(self):
        return next((i for i, it in enumerate(map(self.status, range(3))) if it and it.get("leader") == it["header"]["member_id"]), 0)

    def close(self):
        for it in self.running:
            it.kill()
            it.wait()


class Client:
    """A client in a process of its own, and what it told, each with the time."""

    def __init__(self, cluster, number, *options):
        words = [sys.executable, CLIENT, ",".join(cluster.nodes), library.SHARED, cluster.room, number, *options]
        how = {"PYTHONPATH": f"{HEADERS}:{REPLICATED}", "PYTHONDONTWRITEBYTECODE": "1"}
        self.number, self.told = number, []
        self.errors = open(f"{cluster.room}/client.{number}", "w+", encoding="utf-8")
        self.process = subprocess.Popen(list(map(str, words)), env={**os.environ, **how}, stdin=subprocess.PIPE, stdout=subprocess.PIPE, stderr=self.errors, text=True)
        threading.Thread(target=self._read, daemon=True).start()

    def _read(self):
        for line in self.process.stdout:
            self.told.append((time.monotonic(), *line.split()))

    def say(self, word):
        self.process.stdin.write(word + "\n")
        self.process.stdin.flush()

    def count(self, word):
        return sum(1 for it in self.told if it[1] == word)

    def is_stopped(self):
        return Path(f"/proc/{self.process.pid}/stat").read_text().rpartition(")")[2].split()[0] == "T"

    def close(self):
        self.process.kill()
        self.process.wait()
        self.errors.close()


class Trial:
    """The clients, their store, and what has to become so in time."""

    def __init__(self, cluster, options):
        self.cluster, self.options, self.clients, self.began = cluster, options, [], time.monotonic()
        Path(f"{cluster.room}/store").write_text("0 0\n")

    def begin(self):
        self.clients.append(Client(self.cluster, len(self.clients), *self.options))
        return self.clients[-1]

    def until(self, what, is_so, seconds=PATIENCE):
        """Waits until something is so."""
        end = time.monotonic() + seconds
        while not is_so():
            now = time.monotonic()
            if now > end or now > self.began + SECONDS:
                raise Failed(f"{what}: not within {seconds} seconds")
            time.sleep(0.02)

    def turns(self):
        return sum(it.count("turn") for it in self.clients)

    def go_on(self, after):
        """Waits until the clients have made some turns more."""
        before = self.turns()
        self.until(f"turns {after}", lambda: self.turns() >= before + ENOUGH)

    def seconds(self):
        return f"{time.monotonic() - self.began:.0f} seconds"


# ---- the faults


def try_leader(trial):
    leader = trial.cluster.leader()
    trial.cluster.kill(leader)
    trial.go_on("when the leading node is lost")
    trial.cluster.start(leader)
    trial.until("the node is back", trial.cluster.are_up)
    trial.go_on("when it is back")
    return "the leading node killed and back"


def try_killed(trial):
    it = trial.clients[0]
    it.say("die")
    trial.until("the client is killed", lambda: it.process.poll() == -signal.SIGKILL)
    trial.go_on("when the owner of the lock is killed")
    return "a client killed while it owned the lock"


def try_shortened(trial):
    for _ in range(3):
        for word, it in (("shorten", trial.clients[2]), ("again", trial.clients[3])):
            before = it.count("done")
            it.say(word)
            trial.until(word, lambda it=it, before=before: it.count("done") > before)
        trial.go_on("when the log is shortened")
    # (nothing rests on the history that the cluster keeps)
    trial.cluster.ask(0, "/v3/kv/compaction", {"revision": trial.cluster.status(0)["header"]["revision"]})
    late = trial.begin()
    trial.until("a client begins with the list", lambda: late.count("turn") > 0)
    return "the log shortened three times, calls sent again behind it, a client that begins with the list"


def try_stopped(trial):
    it = trial.clients[1]
    it.say("stop")
    trial.until("the client is stopped", it.is_stopped)
    trial.go_on("when the owner of the lock is stopped")
    it.process.send_signal(signal.SIGCONT)
    trial.until("the store refuses its token", lambda: it.count("refused") > 0)
    trial.until("it is told", lambda: it.count("gone") > 0)
    before = it.count("turn")
    trial.until("it joins again", lambda: it.count("turn") > before)
    return "a client stopped past its lease: its token is refused, it is told, and it joins again"


def try_majority(trial):
    leader, there = trial.cluster.leader(), [it for it in trial.clients if it.process.poll() is None]
    down, before = [leader, (leader + 1) % 3], {it: it.count("unreachable") for it in there}
    for i in down:
        trial.cluster.kill(i)
    lost = time.monotonic()
    trial.until("each client is told", lambda: all(it.count("unreachable") > before[it] for it in there))
    told = [next(at for at, *words in it.told if words == ["unreachable"] and at > lost) - lost for it in there]
    if max(told) > TOLD_WITHIN:
        raise Failed(f"a client was told after {max(told):.1f} seconds that the cluster is not reached")
    time.sleep(1)
    # (one who owned the lock may have written once more)
    late = [it for client in there for it in client.told if it[1] == "turn" and it[0] > lost]
    if len(late) > 1:
        raise Failed(f"{len(late)} turns without a cluster")
    for i in down:
        trial.cluster.start(i)
    trial.until("the nodes are back", trial.cluster.are_up)
    trial.go_on("when two of three nodes are back")
    trial.until("each client joins again", lambda: all(it.told[-1][1] not in ("unreachable", "tries") for it in there))
    return f"two of three nodes killed and back: each client told within {max(told):.1f} seconds, no turn meanwhile"


def try_prefixes(trial):
    """63 clients are there under a prefix. The next one finds no place, and finds one under another prefix."""
    sys.path[:0] = [str(HEADERS), str(REPLICATED)]
    from etcd_log import Log
    from shared_locks import Full, Lock, SharedLocks

    nodes = trial.cluster.nodes
    log = Log(nodes, "/first/")
    lease = log.lease(60)
    for i in range(63):
        log.live(f"c{i}", lease)
        log.append(f"c{i}/1", '["join"]', f"c{i}")
    try:
        SharedLocks(nodes, "/first/", library=library.SHARED)
        raise Failed("64 clients have joined under one prefix")
    except Full:
        pass
    other = SharedLocks(nodes, "/second/", library=library.SHARED)
    other.lock(Lock("FILE"))
    log.revoke(lease)
    # (they end, and there is room)
    end = time.monotonic() + PATIENCE
    while True:
        try:
            one = SharedLocks(nodes, "/first/", library=library.SHARED)
            break
        except Full:
            if time.monotonic() > end:
                raise Failed("63 clients do not end")
    one.lock(Lock("FILE"))
    one.close()
    other.close()
    return "two prefixes: 63 clients under one, and the 64th under the other"


# ---- what has to hold in the end


def records_of(trial):
    """Gives the records of each client: each a list of (revision, command, answer)."""
    for file in sorted(Path(trial.cluster.room).glob("record.*")):
        lines = file.read_text().split("\n")[:-1]
        yield file.name, [(float(revision), command, answer) for revision, command, answer in (it.split("\t") for it in lines)]


def try_count(trial):
    tokens = sorted(int(it[2]) for client in trial.clients for it in client.told if it[1] == "turn")
    number = int(Path(f"{trial.cluster.room}/store").read_text().split()[0])
    if number != len(tokens) or len(set(tokens)) != number:
        raise Failed(f"{len(tokens)} turns with {len(set(tokens))} tokens, and {number} are counted")
    late = sum(it.count("late") for it in trial.clients)
    return f"{number} turns counted, none lost, {late} waits that were over"


def entries_of(found):
    """Gives the entries that some records have, by their revisions: all tables were handed the same."""
    known = {}
    for name, record in found:
        for revision, *told in record:
            if revision and known.setdefault(revision, told) != told:
                raise Failed(f"{name}: at revision {revision:.0f} {told}, and in another table {known[revision]}")
    for name, record in found:
        there = {it for it, _, _ in record if it}
        missing = [it for it in known if min(there) <= it <= max(there) and it not in there]
        if missing:
            raise Failed(f"{name}: revision {missing[0]:.0f} is missing")
    return known


def try_records(trial, lockmon):
    found = list(records_of(trial))
    known, lines = entries_of(found), 0
    for name, record in found:
        script = "".join(f"{command}\n" for _, command, _ in record).encode()
        wanted = "".join(f"{answer}\n" for _, _, answer in record).replace("|", "\n").encode()
        fault = library.written.difference(wanted, library.answers_of([lockmon, "queue"], script))
        if fault:
            raise Failed(f"{name}, replayed by lockmon queue: {fault}")
        lines += len(record)
    if len(known) < 500:
        raise Failed(f"only {len(known)} entries are recorded")
    return f"{len(known)} entries; {len(found)} lists of calls with {lines} lines are the same, and lockmon queue answers the same"


def tell_all(trial):
    """Tells what each client told last, and what it wrote to standard error; and where tables differ, if they do."""
    for it in trial.clients:
        it.errors.seek(0)
        last = ", ".join(f"{' '.join(words)} at {at - trial.began:.1f}" for at, *words in it.told[-5:])
        print("".join(f"client {it.number}: {line}" for line in [f"{last}\n", *it.errors]), end="", file=sys.stderr)
    try:
        entries_of(list(records_of(trial)))
    except Failed as fault:
        print(f"tables differ: {fault}", file=sys.stderr)


def try_all(room, lockmon, options):
    cluster = Cluster(room)
    trial = Trial(cluster, options)
    try:
        trial.until("the cluster is there", cluster.are_up)
        for _ in range(CLIENTS):
            trial.begin()
        trial.go_on("at first")
        for part in (try_leader, try_killed, try_shortened, try_stopped, try_majority, try_prefixes):
            yield f"{part(trial)} ({trial.seconds()})"
        for it in trial.clients[1:]:
            it.say("end")
        trial.until("the clients end", lambda: all(it.process.poll() == 0 for it in trial.clients[1:]))
        yield try_count(trial)
        yield try_records(trial, lockmon)
    except Failed:
        tell_all(trial)
        raise
    finally:
        for it in trial.clients:
            it.close()
        cluster.close()


def main(words):
    lockmon = next((it.removeprefix("lockmon=") for it in words if it.startswith("lockmon=")), TOP / "crates/lockmon/out/lockmon")
    lockmon = os.path.abspath(lockmon)
    if not shutil.which("etcd"):
        print("replicated: not tried, since there is no etcd on the PATH (Debian: etcd-server)", file=sys.stderr)
        return 0
    os.chdir(TOP)
    try:
        library.build()
        with tempfile.TemporaryDirectory() as room:
            for said in try_all(room, lockmon, [it for it in words if it == "--own-clock"]):
                print(f"replicated: {said}", file=sys.stderr, flush=True)
    except Failed as fault:
        print(f"replicated: {fault}", file=sys.stderr)
        return 1
    return 0


if __name__ == "__main__":
    sys.exit(main(sys.argv[1:]))
