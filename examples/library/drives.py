"""Five tape drives are a pool, from which people take some at a time: drives.py [LIBRARY]

Who asks first is served first, also if later ones could be served at once. The clock is a number here, so that the run is
the same each time; a server would take the time of day."""

import sys

from hirvodas_locks import WAITS, Lock, Locks

DRIVES, PATIENCE = 5, 10


def drives(amount):
    return Lock("TAPE", pool=(DRIVES, amount))


class Desk:
    """The desk where drives are asked for. A person is a job, by number."""

    def __init__(self, library=None):
        self.table, self.until = Locks(library), {}

    def ask(self, now, person, amount):
        if self.table.enqueue(person, 1, drives(amount)) == WAITS:
            self.until[person] = now + PATIENCE
            print(f"{now:3}: person {person} asks for {amount} and waits for", *(f"person {it}" for it in self.table.waits_for(person)))
        else:
            print(f"{now:3}: person {person} has {amount}")

    def give_back(self, now, person):
        self.table.release(person)
        print(f"{now:3}: person {person} gives all back")
        self.tell(now)

    def look_at_clock(self, now):
        """Ends the waits that are over, all in one call."""
        late = [it for it, until in self.until.items() if until <= now]
        if late:
            self.table.withdraw(*late)
            for it in late:
                del self.until[it]
                print(f"{now:3}: person {it} has waited for too long")
            self.tell(now)

    def tell(self, now):
        for person, _ in self.table.granted:
            self.until.pop(person, None)
            print(f"{now:3}: person {person} is served")


desk = Desk(sys.argv[1] if len(sys.argv) > 1 else None)
desk.ask(0, 1, 3)
desk.ask(1, 2, 4)
desk.ask(2, 3, 1)
desk.ask(3, 4, 2)
desk.look_at_clock(11)
desk.give_back(12, 1)
desk.look_at_clock(20)
print(len(desk.table), "requests are left,", desk.table.status(0, drives(1)).amount, "drives are out")
