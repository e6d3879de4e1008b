"""An ordered log in an etcd cluster, by its JSON gateway and the standard library alone.

An entry is a key that is created once under a prefix, and the log is these keys in the order of the revisions that created
them. Nothing rests on the cluster's history of older revisions: it may be compacted at any time."""

import base64
import http.client
import itertools
import json
import time

PATIENCE = 5  # for so many seconds a call tries to reach the cluster,
TRY = 2  # and for so many one node, before it goes on with the next
DELETED_AT_ONCE = 100


class Unreachable(Exception):
    """No node of the cluster answered in time. Whether the call is in the log is not known."""


class Gone(Exception):
    """The lease of this client has ended, and its locks were released."""


class Shortened(Exception):
    """Entries that were not read yet are deleted."""


def coded(text):
    return base64.b64encode(text.encode()).decode()


def plain(text):
    return base64.b64decode(text).decode()


class Log:
    """The log under a prefix, which ends with '/'. `nodes` are addresses HOST:PORT. One thread at a time uses a `Log`."""

    def __init__(self, nodes, prefix):
        self._nodes, self._prefix, self._node = itertools.cycle(nodes), prefix, None

    def _key(self, name):
        return coded(self._prefix + name)

    def _below(self, name):
        """Gives the keys that begin with a name, which ends with '/'."""
        return {"key": self._key(name), "range_end": coded((self._prefix + name)[:-1] + "0")}

    def _opened(self, path, body):
        """Sends a request to the node that answered last, or else to the next one."""
        self._node = self._node or http.client.HTTPConnection(next(self._nodes), timeout=TRY)
        self._node.request("POST", path, json.dumps(body))
        return self._node.getresponse()

    def leave(self):
        """Leaves the node, so that the next request goes to another."""
        if self._node:
            self._node.close()
        self._node = None

    def _ask(self, path, body):
        until = time.monotonic() + PATIENCE
        while time.monotonic() < until:
            try:
                answer = self._opened(path, body)
                told = json.loads(answer.read())
                if answer.status == 200:
                    return told
                if "lease not found" in told.get("error", ""):
                    raise Gone
            except (OSError, ValueError, http.client.HTTPException):
                pass
            self.leave()
            time.sleep(0.05)
        raise Unreachable

    def lease(self, seconds):
        """Gives a lease, which ends unless it is kept."""
        return int(self._ask("/v3/lease/grant", {"TTL": seconds})["ID"])

    def keep(self, lease):
        """Keeps a lease. Whether it was still there."""
        return "TTL" in self._ask("/v3/lease/keepalive", {"ID": lease})["result"]

    def revoke(self, lease):
        """Ends a lease, if it is still there."""
        try:
            self._ask("/v3/lease/revoke", {"ID": lease})
        except Gone:
            pass

    def live(self, client, lease):
        """Has a client live as long as a lease."""
        self._ask("/v3/kv/put", {"key": self._key(f"alive/{client}"), "lease": lease})

    def append(self, name, value, client=None):
        """Adds an entry once, however often it is sent. A client's entry is added as long as it lives; then it is `Gone`."""
        key, lives = self._key("call/" + name), self._key(f"alive/{client}")
        terms, failed = [{"key": key, "target": "VERSION", "result": "EQUAL", "version": 0}], []
        if client:
            terms.append({"key": lives, "target": "VERSION", "result": "GREATER", "version": 0})
            failed = [{"request_range": {"key": lives, "count_only": True}}]
        put = {"request_put": {"key": key, "value": coded(value)}}
        told = self._ask("/v3/kv/txn", {"compare": terms, "success": [put], "failure": failed})
        if client and not told.get("succeeded") and "count" not in told["responses"][0]["response_range"]:
            raise Gone

    def list(self):
        """Gives the list that was written last: the revision that it stands for, the one up to which entries are deleted, its
        text, and the revision at which it was written."""
        found = self._ask("/v3/kv/range", {"key": self._key("list")}).get("kvs")
        return self._listed(found)

    @staticmethod
    def _listed(found):
        revision, deleted, text = plain(found[0]["value"]).split(" ", 2) if found else ("0", "0", None)
        return int(revision), int(deleted), text, int(found[0]["mod_revision"]) if found else 0

    def shorten(self, revision, text):
        """Writes the list that the entries up to a revision have led to, and deletes those up to the list before it. (So who
        reads on behind that one loses nothing.)"""
        before, _, _, written = self.list()
        term = {"key": self._key("list"), "target": "MOD", "result": "EQUAL", "mod_revision": written}
        put = {"request_put": {"key": self._key("list"), "value": coded(f"{revision} {before} {text}")}}
        if before >= revision or not self._ask("/v3/kv/txn", {"compare": [term], "success": [put]}).get("succeeded"):
            return
        old = {**self._below("call/"), "max_create_revision": before, "keys_only": True}
        keys = [it["key"] for it in self._ask("/v3/kv/range", old).get("kvs", [])] if before else []
        for at in range(0, len(keys), DELETED_AT_ONCE):
            self._ask("/v3/kv/txn", {"success": [{"request_delete_range": {"key": it}} for it in keys[at : at + DELETED_AT_ONCE]]})

    def _read(self, after):
        """Gives the entries behind a revision, the clients that live, and the revision of the cluster at which this is so."""
        entries = {**self._below("call/"), "min_create_revision": after + 1, "sort_order": "ASCEND", "sort_target": "CREATE"}
        ranges = [{"key": self._key("list")}, entries, {**self._below("alive/"), "keys_only": True}]
        told = self._ask("/v3/kv/txn", {"success": [{"request_range": it} for it in ranges]})
        listed, found, alive = (it["response_range"].get("kvs", []) for it in told["responses"])
        if self._listed(listed)[1] > after:
            raise Shortened
        return map(self._entry, found), {plain(it["key"]).rpartition("/")[2] for it in alive}, int(told["header"]["revision"])

    def _entry(self, pair):
        return int(pair["create_revision"]), plain(pair["key"]).removeprefix(self._prefix + "call/"), plain(pair["value"])

    def _watch(self, after):
        """Gives what happens behind a revision of the cluster, until the node is silent."""
        try:
            with self._opened("/v3/watch", {"create_request": {**self._below(""), "start_revision": after + 1}}) as lines:
                for line in lines:
                    yield from json.loads(line)["result"].get("events", [])
        except (OSError, ValueError, KeyError, http.client.HTTPException):
            pass
        self.leave()

    def events(self, after, clients):
        """Yields (revision, name, value) of each entry behind a revision, in order, for ever, and (None, client, None) for each
        of `clients()` that lives no more. Raises `Shortened` if entries are deleted that were not read."""
        while True:
            try:
                entries, alive, read = self._read(after)
            except Unreachable:
                continue
            for entry in entries:
                yield entry
                after = entry[0]
            yield from [(None, it, None) for it in clients() if it not in alive]
            for event in self._watch(max(after, read)):
                name = plain(event["kv"]["key"]).removeprefix(self._prefix)
                if event.get("type") != "DELETE" and name.startswith("call/"):
                    yield (entry := self._entry(event["kv"]))
                    after = entry[0]
                elif event.get("type") == "DELETE" and name.startswith("alive/"):
                    yield None, name.removeprefix("alive/"), None
