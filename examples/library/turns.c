/* Readers and a writer take turns at a book. A reader that comes after the writer waits behind it, although it could read
 * beside the first two.
 *
 *     cc turns.c $(pkg-config --cflags --libs hirvodas-locks) -o turns */
#include "locks.h"
#include <stdio.h>

static locks table = LOCKS_NONE;

static void ask(uint8_t job, uint32_t flags)
{
    lock_terms book = locks_named("BOOK");
    book.flags |= flags;
    uint32_t code = locks_enqueue(&table, job, LOCKS_BLOCKING, 1, LOCKS_NO_QUOTA, &book, 1);
    const char *how = code == LOCKS_OK ? "has it" : code == LOCKS_WAITS ? "waits" : "is refused";
    printf("job %u wants to %s: it %s\n", job, flags & LOCKS_SHARED ? "read" : "write", how);
}

static void give_up(uint8_t job)
{
    lock_grant grant;
    locks_dequeue_all(&table, job);
    printf("job %u gives it up\n", job);
    for (size_t i = 0; locks_grant(&table, i, &grant) == LOCKS_OK; i++) printf("    job %u has it now\n", grant.job);
}

int main(void)
{
    if (locks_make(&table) != LOCKS_OK) return 1;
    ask(1, LOCKS_SHARED);
    ask(2, LOCKS_SHARED);
    ask(3, 0);
    ask(4, LOCKS_SHARED);
    ask(4, 0);
    for (uint8_t job = 1; job <= 4; job++) give_up(job);
    printf("%zu requests are left\n", locks_requests(&table));
    locks_free(&table);
    return 0;
}
