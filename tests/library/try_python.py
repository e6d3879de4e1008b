"""What the Python module sees of the library: try_python.py LIBRARY"""

import sys

from hirvodas_locks import BAD_COUNT, BAD_ID, BAD_JOB, BAD_NAME, BAD_TERMS, BUSY, NO_TABLE, NOT_GRANTED, NOTIFY, OK, TRY, WAITS, Lock, Locks, Refused

table = Locks(sys.argv[1])


def refused(call, *words, **named):
    """Gives the code by which a call is refused."""
    before = len(table)
    try:
        call(*words, **named)
    except Refused as refusal:
        assert len(table) == before or named.get("kind") == NOTIFY
        return refusal.code
    return None


x, drives = Lock("X"), [Lock("TAPE", pool=(5, it)) for it in (0, 1, 2, 3, 4)]

# who comes second waits, and is told
assert table.enqueue(1, 1, x) == OK
assert table.enqueue(2, 2, x) == WAITS and table.waiting(2) and table.waits_for(2) == [1]
assert refused(table.enqueue, 2, 3, Lock("Y")) == BUSY
assert refused(table.enqueue, 3, 1, x, kind=TRY) == NOT_GRANTED
assert refused(table.enqueue, 3, 4, x, kind=NOTIFY) == NOT_GRANTED and len(table) == 3
assert table.dequeue(1, x) == OK and table.granted == [(2, 2)]
assert table.dequeue_all(2) == OK and table.granted == [(3, 4)]
assert table.dequeue_id(3, 4) == OK and len(table) == 0

# a pool: job 4 reaches its limit, and who waits behind it is let in by the same call
assert table.enqueue(3, 1, drives[2]) == OK
assert table.enqueue(4, 2, drives[4]) == WAITS
assert table.enqueue(5, 3, drives[1]) == WAITS
assert table.withdraw(4) == OK and table.granted == [(5, 3)]
status = table.status(3, drives[1])
assert (status.flags, status.owners, status.waiters, status.amount) == (1, 2, 0, 3)

# several limits are over at once: job 7 is behind job 6, and neither is let in
assert table.enqueue(6, 1, drives[3]) == WAITS and table.enqueue(7, 1, drives[3]) == WAITS and table.enqueue(8, 1, drives[2]) == WAITS
assert table.withdraw(6, 7) == OK and table.granted == [(8, 1)]
assert not any(map(table.waiting, (6, 7, 8)))
assert table.withdraw() == OK and table.granted == []

# sharers, and a change that lets one in
assert table.enqueue(9, 1, Lock("F")) == OK and table.enqueue(10, 1, Lock("F", shared=True)) == WAITS
assert table.modify(9, Lock("F", shared=True)) == OK and table.granted == [(10, 1)]

# a deadlock
assert table.enqueue(11, 1, Lock("P", level=1)) == OK and table.enqueue(12, 1, Lock("Q", level=1)) == OK
assert table.enqueue(11, 2, Lock("Q", bypass=True, level=1)) == WAITS
assert table.enqueue(12, 2, Lock("P", bypass=True, level=1)) == WAITS
assert table.in_circle(11) and table.in_circle(12) and not table.in_circle(3)
assert table.release(12) == OK and table.granted == [(11, 2)]

# what is read can be asked for again: a second table gets the first one's requests, and has the same list
again = Locks(sys.argv[1])
for request, locks in table.requests():
    assert again.enqueue(request.job, request.id, *locks, kind=request.kind) == (OK if request.flags & 1 else WAITS)
shown = [[(r.job, r.id, r.kind, r.flags, r.wants, [bytes(it) for it in locks]) for r, locks in it.requests()] for it in (table, again)]
assert shown[0] == shown[1] and len(shown[0]) == len(table) > 5
again.close()

# bad arguments
assert refused(table.enqueue, 20, 1, Lock("A" * 31)) == BAD_NAME
assert refused(table.enqueue, 20, 1, Lock("")) == BAD_NAME
assert refused(table.enqueue, 20, 1) == BAD_COUNT
assert refused(table.enqueue, 20, 1, *[Lock(f"N{it}") for it in range(17)]) == BAD_COUNT
assert refused(table.enqueue, 20, 1, Lock("A", group=1 << 18)) == BAD_TERMS
assert refused(table.enqueue, 64, 1, x) == BAD_JOB and refused(table.enqueue, 0, 1, x) == BAD_JOB
assert refused(table.enqueue, 20, 1 << 18, x) == BAD_ID
for call in (lambda: table.enqueue(257, 1, x), lambda: table.enqueue(1, -1, x), lambda: table.withdraw(64)):
    try:
        call()
        raise AssertionError("a number was cut off")
    except ValueError:
        pass
table.close()
table.close()
assert refused(table.release, 1) == NO_TABLE and len(table) == 0
