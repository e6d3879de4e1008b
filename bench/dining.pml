/* Jobs round a table, each with a fork to either side, as lockcheck.sh asks of `lockcheck`: a job asks for its fork, then
   for that of the next job, and gives both up, by one call or by two. A call that asks for a fork which is taken waits,
   and is granted when the fork is given up: each fork is wanted by two jobs, so at most one waits. */
byte owner[JOBS];
byte waiter[JOBS];

#define NEXT ((_pid + 1) % JOBS)
#define has(fork) (owner[fork] == _pid + 1)

inline ask(fork) {
    if
    :: owner[fork] == 0 -> owner[fork] = _pid + 1
    :: else -> waiter[fork] = _pid + 1
    fi
}

inline give_up(fork) {
    owner[fork] = waiter[fork];
    waiter[fork] = 0
}

active [JOBS] proctype Job()
{
    atomic { ask(_pid) }
    atomic { has(_pid) -> ask(NEXT) }
#if CALLS == 3
    atomic { has(NEXT) -> give_up(_pid); give_up(NEXT) }
#else
    atomic { has(NEXT) -> give_up(_pid) }
    atomic { give_up(NEXT) }
#endif
end: false
}
