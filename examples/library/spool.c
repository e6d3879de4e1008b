/* Four jobs share two printers, a pool. Job 3 wants both of them, and nobody overtakes it until its time is over. */
#include "locks.h"
#include <stdio.h>

static locks table = LOCKS_NONE;

static void tell_grants(void)
{
    lock_grant grant;
    for (size_t i = 0; locks_grant(&table, i, &grant) == LOCKS_OK; i++) printf("job %u prints now\n", grant.job);
}

static void ask(uint8_t job, uint32_t printers)
{
    lock_terms pool = locks_named("PRINTER");
    pool.pool_size = 2;
    pool.pool_amount = printers;
    uint32_t code = locks_enqueue(&table, job, LOCKS_BLOCKING, 1, LOCKS_NO_QUOTA, &pool, 1);
    if (code == LOCKS_OK) printf("job %u prints at once\n", job);
    else if (code == LOCKS_WAITS) printf("job %u waits\n", job);
    else printf("job %u is refused: code %u\n", job, code);
    tell_grants();
}

int main(void)
{
    if (locks_make(&table) != LOCKS_OK) return 1;
    ask(1, 1);
    ask(2, 1);
    ask(3, 2);
    ask(4, 1);
    ask(4, 1);
    ask(5, 3);
    puts("job 1 has printed: one printer is free, and job 3 is first");
    locks_dequeue_all(&table, 1);
    tell_grants();
    puts("job 3 has waited too long");
    if (locks_waiting(&table, 3) == LOCKS_WAITS) locks_withdraw(&table, (uint64_t)1 << 3);
    tell_grants();
    locks_free(&table);
}
