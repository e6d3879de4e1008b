#!/usr/bin/env python3
"""How many turns a second clients of one cluster take (a lock is taken and given back), each in a process of its own: with the
shared locks, with `etcdctl lock`, with the mutex of Python's etcd3 (Debian: python3-etcd3), and with the one that a node runs for
its clients (the Go client's own). Three nodes and all clients are on this machine. Build the library before: .ci/library.py --build"""

import http.client
import json
import os
import subprocess
import sys
import tempfile
import time
from pathlib import Path

sys.dont_write_bytecode = True
TOP = Path(__file__).resolve().parents[2]
sys.path[:0] = [str(TOP / it) for it in (".ci", "contrib/library", "examples/library/replicated")]

SECONDS = 4
LEASE = 10


def shared(nodes, name, until):
    """Turns with the shared locks."""
    from hirvodas_locks import Lock
    from shared_locks import SharedLocks

    locks, turns = SharedLocks(nodes, lease=LEASE, library=str(TOP / "out/library/libhirvodas-locks.so")), 0
    yield
    while time.time() < until():
        locks.lock(Lock(name))
        locks.unlock(Lock(name))
        turns += 1
    locks.close()
    yield turns


def etcdctl(nodes, name, until):
    """Turns by a command: it starts a process and a lease each time."""
    words, turns = ["etcdctl", "--endpoints", ",".join(nodes), "lock", name, "true"], 0
    yield
    while time.time() < until():
        subprocess.run(words, env={**os.environ, "ETCDCTL_API": "3"}, check=True, capture_output=True)
        turns += 1
    yield turns


def etcd3(nodes, name, until):
    """Turns with the mutex of Python's etcd3: it takes a lease each time."""
    import etcd3 as client

    host, _, port = nodes[hash(name) % len(nodes)].partition(":")
    mutex, turns = client.client(host=host, port=int(port)).lock(name, ttl=LEASE), 0
    yield
    while time.time() < until():
        if mutex.acquire(timeout=None):
            mutex.release()
            turns += 1
    yield turns


def node_mutex(nodes, name, until):
    """Turns with the mutex that a node runs, under one lease."""
    host, _, port = nodes[os.getpid() % len(nodes)].partition(":")
    node = http.client.HTTPConnection(host, int(port), timeout=60)

    def ask(path, body):
        node.request("POST", path, json.dumps(body))
        return json.loads(node.getresponse().read())

    lease, turns = ask("/v3/lease/grant", {"TTL": 60})["ID"], 0
    coded = __import__("base64").b64encode(name.encode()).decode()
    yield
    while time.time() < until():
        key = ask("/v3/lock/lock", {"name": coded, "lease": lease})["key"]
        ask("/v3/lock/unlock", {"key": key})
        turns += 1
    yield turns


KINDS = {it.__name__: it for it in (shared, etcdctl, etcd3, node_mutex)}


def turns_of(kind, nodes, clients, locks):
    """Gives how many turns a second some clients take at some locks."""
    words = [sys.executable, __file__, kind, ",".join(nodes)]
    names = [f"{kind}{i % locks}" for i in range(clients)]
    running = [subprocess.Popen([*words, it], stdin=subprocess.PIPE, stdout=subprocess.PIPE, stderr=subprocess.DEVNULL, text=True) for it in names]
    for it in running:
        it.stdout.readline()
    until = time.time() + SECONDS
    for it in running:
        it.stdin.write(f"{until}\n")
        it.stdin.flush()
    turns = 0
    for it in running:
        try:
            turns += int(it.communicate(timeout=SECONDS + 60)[0] or 0)
        except subprocess.TimeoutExpired:
            it.kill()
    return turns / SECONDS


def client(kind, nodes, name):
    """A client: it says that it is ready, reads until when it takes turns, and says how many these were."""
    ends = []
    made = KINDS[kind](nodes.split(","), name, lambda: ends[0])
    next(made)
    print("ready", flush=True)
    ends.append(float(sys.stdin.readline()))
    print(next(made), flush=True)


def main():
    from replicated import Cluster

    with tempfile.TemporaryDirectory() as room:
        cluster = Cluster(room)
        try:
            while not cluster.are_up():
                time.sleep(0.1)
            print(f"{'':12}" + "".join(f"{clients:>4} on {locks:<4}" for locks in (1, 32) for clients in (1, 8, 32)))
            for kind in KINDS:
                print(f"{kind:12}" + "".join(f"{turns_of(kind, cluster.nodes, clients, locks):>8.0f}   " for locks in (1, 32) for clients in (1, 8, 32)), flush=True)
        finally:
            cluster.close()


if __name__ == "__main__":
    if sys.argv[1:]:
        client(*sys.argv[1:])
    else:
        main()
