"""A lock table with exact rules, for up to 63 jobs and 1,024 requests: liblocks.so for Python. docs/LIBRARY.md is the page
about it; locks.h says what each call does.

    table = Locks()
    if table.enqueue(1, 7, Lock("LEDGER")) == WAITS:
        ...                         # until a later call has (1, 7) in table.granted

One call at a time uses a table: with several threads put a lock around it. Numbers of jobs are from 1 to 63."""

import ctypes
import os

# What a call returns, or why it is refused.
OK = 0
NOT_GRANTED = 1
BAD_KIND = 2
BAD_ID = 3
BAD_COUNT = 4
BAD_NAME = 6
BAD_TERMS = 7
BAD_POOL = 8
DIFFERS = 9
LEVEL_ORDER = 10
NAMED_ALREADY = 11
NOT_PRESENT = 12
WOULD_LOSE = 13
FULL = 14
OVER_QUOTA = 16
WAITS = 32
BUSY = 33
BAD_JOB = 34
NO_TABLE = 35
NO_MEMORY = 36

# Kinds of requests.
BLOCKING = 0
TRY = 1
NOTIFY = 2

# Flags of a lock.
SHARED = 1
BYPASS = 2
OWN = 4
CODE = 8

# How many jobs there are, and a quota that no job reaches.
JOBS = 63
NO_QUOTA = 65535

LIBRARY = "libhirvodas-locks.so"
NAME_BYTES = 32
NUMBERS = {1: ctypes.c_uint8, 2: ctypes.c_uint16, 4: ctypes.c_uint32, 8: ctypes.c_uint64}


def library_of():
    """Gives the library that ./install put beside this file, or else the name by which the system finds one."""
    beside = os.path.join(os.path.dirname(__file__), "../../../lib", LIBRARY)
    return beside if os.path.exists(beside) else LIBRARY


class Refused(Exception):
    """A call that changed nothing. `code` says why."""

    def __init__(self, code):
        super().__init__(f"refused with code {code}")
        self.code = code


class Lock(ctypes.Structure):
    """One lock of a call, by its name or, if that is a number, by its code."""

    _fields_ = [
        ("name", ctypes.c_uint8 * NAME_BYTES),
        ("code", ctypes.c_uint64),
        ("flags", ctypes.c_uint32),
        ("length", ctypes.c_uint32),
        ("level", ctypes.c_uint32),
        ("group", ctypes.c_uint32),
        ("pool_size", ctypes.c_uint32),
        ("pool_amount", ctypes.c_uint32),
    ]

    def __init__(self, name, shared=False, group=0, level=0, bypass=False, own=False, pool=(0, 0)):
        super().__init__()
        if isinstance(name, int):
            self.code, self.flags = name, CODE
        else:
            text = name.encode()
            self.length = min(len(text), NAME_BYTES + 1)
            ctypes.memmove(self.name, text, min(len(text), NAME_BYTES))
        self.flags |= SHARED * shared + BYPASS * bypass + OWN * own
        self.group, self.level = group, level
        self.pool_size, self.pool_amount = pool


class Grant(ctypes.Structure):
    _fields_ = [("job", ctypes.c_uint32), ("id", ctypes.c_uint32)]


class Status(ctypes.Structure):
    """The status of a lock. Of `flags` 1 says that the job owns it, 2 that it waits for it, 4 that it is owned exclusively."""

    _fields_ = [
        ("flags", ctypes.c_uint32),
        ("level", ctypes.c_uint32),
        ("first_owner", ctypes.c_uint32),
        ("owners", ctypes.c_uint32),
        ("waiters", ctypes.c_uint32),
        ("amount", ctypes.c_uint32),
    ]


class Request(ctypes.Structure):
    """A request in the list. Of `flags` 1 says that it is granted, 2 that its job was notified."""

    _fields_ = [
        ("job", ctypes.c_uint32),
        ("id", ctypes.c_uint32),
        ("kind", ctypes.c_uint32),
        ("flags", ctypes.c_uint32),
        ("wants", ctypes.c_uint32),
    ]


class Handle(ctypes.Structure):
    _fields_ = [("table", ctypes.c_void_p)]


# The parameters of each function behind the handle: a number by its bytes, `locks` for locks and their count, or what is
# written.
FUNCTIONS = {
    "make": [],
    "free": [],
    "enqueue": [1, 4, 4, 2, "locks"],
    "modify": [1, "locks"],
    "dequeue": [1, "locks"],
    "dequeue_all": [1],
    "dequeue_id": [1, 4],
    "release": [1],
    "withdraw": [8],
    "grants": [],
    "grant": ["place", Grant],
    "status": [1, Lock, Status],
    "waiting": [1],
    "waits_for": [1, 1],
    "in_circle": [1],
    "requests": [],
    "request": ["place", Request],
    "want": ["place", "place", Lock],
}
COUNTS = ("grants", "requests")


def types_of(parameter):
    """Gives the types of a parameter of `FUNCTIONS`."""
    if parameter == "locks":
        return [ctypes.POINTER(Lock), ctypes.c_size_t]
    if parameter == "place":
        return [ctypes.c_size_t]
    return [NUMBERS[parameter] if parameter in NUMBERS else ctypes.POINTER(parameter)]


def number_in(number, bits):
    """Gives a number if it has so many bits: ctypes would cut it off."""
    if not 0 <= number < 1 << bits:
        raise ValueError(f"{number} is no number of {bits} bits")
    return number


class Locks:
    """One table. Its calls return OK or WAITS, or raise `Refused`. Afterwards `granted` has the grants that the last of
    `enqueue`, `modify`, `dequeue`, `release` and `withdraw` made of earlier requests: pairs of a job and an id."""

    def __init__(self, library=None):
        found, self._handle, self.granted = ctypes.CDLL(library or library_of()), Handle(), []
        self._calls = {}
        for name, parameters in FUNCTIONS.items():
            call = self._calls[name] = getattr(found, f"locks_{name}")
            call.argtypes = [ctypes.POINTER(Handle), *(it for word in parameters for it in types_of(word))]
            call.restype = None if name == "free" else ctypes.c_size_t if name in COUNTS else ctypes.c_uint32
        self._told(self._call("make"))

    def _call(self, name, *words):
        return self._calls[name](self._handle, *words)

    def _told(self, code):
        if code not in (OK, WAITS):
            raise Refused(code)
        return code

    def _served(self, name, *words, locks=None):
        if locks is not None:
            words += ((Lock * max(1, len(locks)))(*locks), len(locks))
        code, grant, self.granted = self._call(name, *words), Grant(), []
        for i in range(self._call("grants")):
            self._call("grant", i, grant)
            self.granted.append((grant.job, grant.id))
        return self._told(code)

    def close(self):
        """Frees the table. Later calls are refused."""
        self._call("free")

    def enqueue(self, job, id, *locks, kind=BLOCKING, quota=NO_QUOTA):
        """Asks for locks, all together."""
        return self._served("enqueue", number_in(job, 8), number_in(kind, 32), number_in(id, 32), number_in(quota, 16), locks=locks)

    def modify(self, job, *locks):
        """Makes the job's wants of these locks shared or exclusive."""
        return self._served("modify", number_in(job, 8), locks=locks)

    def dequeue(self, job, *locks):
        """Gives up the job's wants of these locks."""
        return self._served("dequeue", number_in(job, 8), locks=locks)

    def dequeue_all(self, job):
        """Gives up all of the job's requests."""
        return self._served("dequeue_all", number_in(job, 8))

    def dequeue_id(self, job, id):
        """Gives up the job's requests of an id."""
        return self._served("dequeue_id", number_in(job, 8), number_in(id, 32))

    def release(self, job):
        """Removes all requests of a job that is gone."""
        return self._served("release", number_in(job, 8))

    def withdraw(self, *jobs):
        """Removes the requests by which these jobs wait. What they own stays."""
        return self._served("withdraw", sum(1 << number_in(job, 6) for job in set(jobs)))

    def status(self, job, lock):
        """Gives the status of a lock, for the job that asks."""
        status = Status()
        self._told(self._call("status", number_in(job, 8), lock, status))
        return status

    def waiting(self, job):
        """Whether a job waits."""
        return self._call("waiting", number_in(job, 8)) == WAITS

    def waits_for(self, job):
        """Gives the jobs that a job waits for."""
        return [it for it in range(1, JOBS + 1) if self._call("waits_for", number_in(job, 8), it) == WAITS]

    def in_circle(self, job):
        """Whether a job is in a deadlock."""
        return self._call("in_circle", number_in(job, 8)) == WAITS

    def __len__(self):
        return self._call("requests")

    def requests(self):
        """Gives each request of the list, with its locks."""
        for i in range(len(self)):
            request, locks = Request(), []
            self._told(self._call("request", i, request))
            for k in range(request.wants):
                locks.append(Lock(""))
                self._told(self._call("want", i, k, locks[-1]))
            yield request, locks
