/* Has each allocation of locks_make fail in turn: it says so, leaves nothing behind, and the next try goes on. Then none
 * fails, and no other call allocates. Link it with -Wl,--wrap=malloc -Wl,--wrap=realloc -Wl,--wrap=free. */
#include "locks.h"
#include <stdio.h>
#include <stdlib.h>

void *__real_malloc(size_t size);
void *__real_realloc(void *block, size_t size);
void __real_free(void *block);

static long fails_at, asked, alive;

void *__wrap_malloc(size_t size)
{
    if (++asked == fails_at) return NULL;
    alive++;
    return __real_malloc(size);
}

void *__wrap_realloc(void *block, size_t size)
{
    if (++asked == fails_at) return NULL;
    alive += block == NULL;
    return __real_realloc(block, size);
}

void __wrap_free(void *block)
{
    alive -= block != NULL;
    __real_free(block);
}

static int complain(const char *what)
{
    fprintf(stderr, "no_memory: allocation %ld: %s\n", fails_at, what);
    return 1;
}

int main(void)
{
    locks table = LOCKS_NONE;
    lock_terms x = locks_named("X");
    lock_grant grant;
    uint32_t code = LOCKS_NO_MEMORY;
    for (fails_at = 1; code == LOCKS_NO_MEMORY; fails_at++) {
        asked = alive = 0;
        code = locks_make(&table);
        if (code == LOCKS_OK) break;
        if (code != LOCKS_NO_MEMORY || table.table || alive) return complain("locks_make did not fail as it should");
        if (locks_enqueue(&table, 1, LOCKS_BLOCKING, 1, 9, &x, 1) != LOCKS_NO_TABLE) return complain("a call was made without a table");
        if (locks_requests(&table)) return complain("there are requests without a table");
    }
    long needed = asked;
    if (needed < 2) return complain("locks_make hardly allocates");
    if (locks_make(&table) != LOCKS_NO_TABLE) return complain("a table was made over another");
    for (uint32_t round = 0; round < 1000; round++) {
        if (locks_enqueue(&table, 1, LOCKS_BLOCKING, 1, 9, &x, 1) != LOCKS_OK) return complain("a lock was not given");
        if (locks_enqueue(&table, 2, LOCKS_BLOCKING, round, 9, &x, 1) != LOCKS_WAITS) return complain("a job did not wait");
        if (locks_release(&table, 1) != LOCKS_OK || locks_grants(&table) != 1) return complain("no grant was made");
        if (locks_grant(&table, 0, &grant) != LOCKS_OK || grant.job != 2 || grant.id != round) return complain("another grant was made");
        if (locks_dequeue_all(&table, 2) != LOCKS_OK) return complain("a lock was not given up");
    }
    if (asked != needed) return complain("a call allocated");
    locks_free(&table);
    if (alive || table.table) return complain("locks_free left something");
    printf("%ld allocations, each failed in turn\n", needed);
    return 0;
}
