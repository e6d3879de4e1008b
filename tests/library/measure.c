/* One job takes locks and gives them up by turns: measure TURNS [LOCKS [PRESENT [NAME]]], with LOCKS locks a call (1), PRESENT
 * other requests in the table (0), and names that begin with NAME (X). Count the instructions of two lengths by
 * valgrind --tool=callgrind: the difference is what the calls between them take, two a turn. */
#include "locks.h"
#include <stdio.h>
#include <stdlib.h>

enum { JOBS_BESIDE = 60 };

static locks table = LOCKS_NONE;

static lock_terms numbered(const char *first, long number, int bypasses)
{
    char name[40];
    snprintf(name, sizeof name, number ? "%s%ld" : "%s", first, number);
    lock_terms lock = locks_named(name);
    if (bypasses) lock.flags |= LOCKS_BYPASS;
    return lock;
}

int main(int count, char **words)
{
    long turns = count > 1 ? atol(words[1]) : 1000, many = count > 2 ? atol(words[2]) : 1, present = count > 3 ? atol(words[3]) : 0;
    lock_terms terms[LOCKS_WANTS];
    if (many < 1 || many > LOCKS_WANTS || locks_make(&table)) return 1;
    for (int i = 0; i < many; i++) terms[i] = numbered(count > 4 ? words[4] : "X", i, many > 1);
    for (long i = 0; i < present; i++) {
        lock_terms other = numbered("N", i + 1, 1);
        if (locks_enqueue(&table, (uint8_t)(2 + i % JOBS_BESIDE), LOCKS_TRY, (uint32_t)i, LOCKS_NO_QUOTA, &other, 1)) return 2;
    }
    for (long i = 0; i < turns; i++) {
        if (locks_enqueue(&table, 1, LOCKS_TRY, 1, LOCKS_NO_QUOTA, terms, (size_t)many)) return 3;
        if (locks_dequeue(&table, 1, terms, (size_t)many)) return 4;
    }
    locks_free(&table);
    return 0;
}
