#!/usr/bin/env python3
"""busy.py [COMMANDS [SEED]] > script: a long script for `lockmon queue` on a busy table.

The table is kept at about 200 requests of 31 jobs over some 260 keys (plain, shared, pooled, private and
user codes), with conflicts, waiters and GRANT lines. The same COMMANDS (200000) and SEED (1) give the
same bytes.

The generator follows only which requests are present. Kinds 1 and 2 are used most, so that a job goes on;
a blocking request is now and then made to wait, and its job is set free soon after.
"""
import random
import sys

JOBS = range(1, 32)
AIM = 200
LIMIT = 256                # never more requests than these at a time


class Busy:
    def __init__(self, seed):
        self.r = random.Random('busy %d' % seed)
        self.keys = (['LOCK.%d' % i for i in range(120)] + ['FILE-%d_%s' % (i, 'ABCDE'[i % 5] * (i % 20)) for i in range(60)]
                     + ['#%o' % (i * i * 7919) for i in range(1, 41)])
        self.level = {k: i % 7 for i, k in enumerate(self.keys)}
        self.size = {}
        for i in range(30):
            k = 'TAPE%d' % i
            self.keys.append(k)
            self.level[k] = i % 5
            self.size[k] = 2 + i % 9
        for i in range(10):
            k = 'OWN%d' % i
            self.keys.append(k)
            self.level[k] = 1
        self.queues = {}                       # (scope, key) -> [[request, shared, amount], ..]
        self.requests = {}                     # request -> (job, id, {(scope, key): option text})
        self.of_job = {j: {} for j in JOBS}    # (scope, key) -> request
        self.blocked = {}                      # job -> commands until it is set free
        self.serial = 0
        self.out = []

    # -- the queue rule, for a request that arrives last

    def fits(self, lock, shared, amount):
        queue = self.queues.get(lock, ())
        if lock[1] in self.size:
            return sum(e[2] for e in queue) + amount <= self.size[lock[1]]
        return all(e[1] for e in queue) and (shared or not queue)

    def take(self, lock, request):
        job = self.requests[request][0]
        self.queues[lock] = [e for e in self.queues[lock] if e[0] != request]
        if not self.queues[lock]:
            del self.queues[lock]
        del self.of_job[job][lock]
        del self.requests[request][2][lock]
        if not self.requests[request][2]:
            del self.requests[request]

    def take_all(self, job, ident=None):
        for lock, request in list(self.of_job[job].items()):
            if ident is None or self.requests[request][1] == ident:
                self.take(lock, request)

    # -- commands

    def job(self, busy=False):
        while True:
            j = self.r.choice(JOBS)
            if (j in self.blocked) == busy:
                return j

    def enqueue(self):
        r, j = self.r, self.job()
        mine = self.of_job[j]
        count = r.choice([1, 1, 1, 2, 2, 3, 5])
        locks = []
        for k in r.sample(self.keys, count):
            lock = (j if k.startswith('OWN') else 0, k)
            if lock not in mine:
                locks.append(lock)
        if not locks:
            return
        locks.sort(key=lambda lock: self.level[lock[1]])
        highest = max((self.level[k] for _, k in mine), default=-1)
        texts, wants, at_once = [], [], True
        for lock in locks:
            scope, k = lock
            t, shared, amount = k, False, 0
            if k in self.size:
                amount = r.randint(1, self.size[k])
            elif r.random() < .55:
                shared = True
                t += '/S'
            if self.level[k] <= highest:
                t += '/B'
            highest = max(highest, self.level[k])
            if self.level[k]:
                t += '/L%d' % self.level[k]
            if amount:
                t += '/P%d:%d' % (self.size[k], amount)
            if scope:
                t += '/J'
            at_once = at_once and self.fits(lock, shared, amount)
            texts.append(t)
            wants.append((lock, shared, amount))
        x = r.random()
        kind = 2 if x < .62 else 1 if x < .97 or len(self.blocked) > 3 else 0
        ident = r.randrange(1, 262144) if r.random() < .8 else r.randrange(1, 5)
        self.out.append('ENQ %d %d %d %s' % (j, kind, ident, ' '.join(texts)))
        if len(self.requests) >= LIMIT or (kind == 1 and not at_once):
            return
        self.serial += 1
        self.requests[self.serial] = (j, ident, dict.fromkeys(locks))
        for lock, shared, amount in wants:
            self.queues.setdefault(lock, []).append([self.serial, shared, amount])
            mine[lock] = self.serial
        if kind == 0 and not at_once:
            self.blocked[j] = r.randint(1, 20)

    def dequeue(self):
        r, j = self.r, self.job()
        mine = self.of_job[j]
        if not mine:
            return
        x = r.random()
        if x < .45:
            names = r.sample(list(mine), min(len(mine), r.choice([1, 1, 2, 3])))
            self.out.append('DEQ %d 0 %s' % (j, ' '.join(k + ('/J' if s else '') for s, k in names)))
            for lock in names:
                self.take(lock, mine[lock])
        elif x < .97:
            ident = self.requests[r.choice(list(mine.values()))][1]
            self.out.append('DEQ %d 2 %d' % (j, ident))
            self.take_all(j, ident)
        else:
            self.out.append('DEQ %d 1' % j)
            self.take_all(j)

    def share(self):
        """A change to shared, which is never refused but for a pool."""
        r, j = self.r, self.job()
        mine = self.of_job[j]
        if not mine:
            return
        lock = r.choice(list(mine))
        self.out.append('ENQ %d 3 0 %s/S%s' % (j, lock[1], '/J' if lock[0] else ''))
        if lock[1] not in self.size:
            for e in self.queues[lock]:
                if e[0] == mine[lock]:
                    e[1] = True

    def look(self):
        r = self.r
        x = r.random()
        if x < .95:
            self.out.append('STAT %d %s' % (r.choice(JOBS), ' '.join(r.sample(self.keys, r.choice([1, 2, 3])))))
        elif x < .995:
            self.out.append('WAITS')
        else:
            self.out.append('SHOW')

    def free(self, j):
        self.out.append('FREE %d' % j)
        self.take_all(j)
        self.blocked.pop(j, None)

    def make(self, count):
        r = self.r
        while len(self.out) < count:
            for j in list(self.blocked):
                self.blocked[j] -= 1
                if self.blocked[j] <= 0:
                    self.free(j)
            x = r.random()
            if x < .06:
                self.look()
            elif x < .09:
                self.share()
            elif x < .0905:
                self.free(self.job())
            else:
                full = len(self.requests) / AIM
                if r.random() < (.9 if full < .98 else .55 if full < 1.04 else .2):
                    self.enqueue()
                else:
                    self.dequeue()
        return ''.join(line + '\n' for line in self.out[:count])


if __name__ == '__main__':
    words = [int(w) for w in sys.argv[1:]]
    sys.stdout.write(Busy(words[1] if len(words) > 1 else 1).make(words[0] if words else 200000))
