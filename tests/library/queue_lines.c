/* Has the library obey lines of `lockmon queue` (ENQ, DEQ, STAT, FREE, SHOW, WAITS), and writes what `lockmon` writes.
 * It takes lines that are right. Of a lock it reads NAME, #CODE and the options /S /Gn /B /Ln /Pn:m /J. */
#include "locks.h"
#include <stdio.h>
#include <stdlib.h>

enum { WORDS = 64, LINE = 4096 };

static locks table = LOCKS_NONE;

static uint32_t number(const char *text)
{
    return (uint32_t)strtoul(text, NULL, 10);
}

static lock_terms lock_of(char *text)
{
    char *rest = strchr(text, '/');
    if (rest) *rest++ = 0;
    lock_terms lock = locks_named(text[0] == '#' ? "" : text);
    if (text[0] == '#') {
        lock.flags |= LOCKS_CODE;
        lock.code = strtoull(text + 1, NULL, 8);
    }
    for (char *option = rest ? strtok(rest, "/") : NULL; option; option = strtok(NULL, "/")) {
        switch (*option) {
        case 'S': lock.flags |= LOCKS_SHARED; break;
        case 'B': lock.flags |= LOCKS_BYPASS; break;
        case 'J': lock.flags |= LOCKS_OWN; break;
        case 'L': lock.level = number(option + 1); break;
        case 'G': lock.group = number(option + 1); break;
        case 'P': sscanf(option + 1, "%u:%u", &lock.pool_size, &lock.pool_amount); break;
        }
    }
    return lock;
}

static void answer(uint32_t code)
{
    if (code == LOCKS_OK) puts("OK");
    else if (code == LOCKS_WAITS) puts("WAIT");
    else if (code == LOCKS_BUSY) puts("BUSY");
    else printf("CODE %u\n", code);
    lock_grant grant;
    for (size_t i = 0; locks_grant(&table, i, &grant) == LOCKS_OK; i++) printf("GRANT %u %u\n", grant.job, grant.id);
}

static void show_lock(const lock_terms *lock)
{
    if (lock->flags & LOCKS_CODE) printf(" #%llo", (unsigned long long)lock->code);
    else printf(" %.*s", (int)lock->length, (const char *)lock->name);
    if (lock->flags & LOCKS_SHARED) printf("/S");
    if (lock->group) printf("/G%u", lock->group);
    if (lock->flags & LOCKS_BYPASS) printf("/B");
    if (lock->level) printf("/L%u", lock->level);
    if (lock->pool_size) printf("/P%u:%u", lock->pool_size, lock->pool_amount);
    if (lock->flags & LOCKS_OWN) printf("/J");
}

static void show(void)
{
    for (size_t i = 0; i < locks_requests(&table); i++) {
        lock_request request;
        lock_terms lock;
        locks_request(&table, i, &request);
        printf("%u %u %u %s", request.job, request.kind, request.id, request.flags & 1 ? "OWN" : "WAIT");
        for (size_t k = 0; locks_want(&table, i, k, &lock) == LOCKS_OK; k++) show_lock(&lock);
        puts("");
    }
    puts("END");
}

static void show_waits(void)
{
    int some = 0;
    for (int job = 1; job <= LOCKS_JOBS; job++)
        for (int other = 1; other <= LOCKS_JOBS; other++)
            if (locks_waits_for(&table, (uint8_t)job, (uint8_t)other) == LOCKS_WAITS) printf("%d FOR %d\n", job, other);
    printf("CIRCLE");
    for (int job = 1; job <= LOCKS_JOBS; job++)
        if (locks_in_circle(&table, (uint8_t)job) == LOCKS_WAITS) some = printf(" %d", job);
    puts(some ? "" : " NONE");
}

/* A status of each lock, or why one of them is refused. */
static void show_status(uint8_t job, const lock_terms *terms, size_t count)
{
    lock_status s;
    uint32_t code = count < 1 || count > LOCKS_WANTS ? LOCKS_BAD_COUNT : LOCKS_OK;
    for (size_t i = 0; i < count && code == LOCKS_OK; i++) code = locks_status(&table, job, &terms[i], &s);
    if (code != LOCKS_OK) {
        printf("CODE %u\n", code);
        return;
    }
    for (size_t i = 0; i < count; i++) {
        locks_status(&table, job, &terms[i], &s);
        uint32_t left = (s.flags & 1) << 16 | (s.flags >> 1 & 1) << 15 | (s.flags >> 2 & 1) << 14 | s.level;
        printf("%06o,,%06o %06o,,%06o %06o,,%06o\n", left, s.first_owner, s.owners, s.waiters, s.amount >> 18, s.amount & 0777777);
    }
}

/* What a call of a kind that there is not returns: a job that waits is busy. */
static uint32_t no_such_kind(uint8_t job)
{
    lock_terms none[1];
    return locks_dequeue(&table, job, none, 0) == LOCKS_BUSY ? LOCKS_BUSY : LOCKS_BAD_KIND;
}

static void obey(char **words, size_t count)
{
    const char *command = words[0];
    size_t first = !strcmp(command, "ENQ") ? 4 : !strcmp(command, "DEQ") ? 3 : 2, given = count > first ? count - first : 0;
    uint8_t job = count > 1 ? (uint8_t)number(words[1]) : 0;
    uint32_t kind = count > 2 ? number(words[2]) : 0, id = count > 3 ? number(words[3]) : 0;
    lock_terms terms[WORDS];
    for (size_t i = 0; i < given; i++) terms[i] = lock_of(words[first + i]);
    if (!strcmp(command, "ENQ") && kind == 3) answer(locks_modify(&table, job, terms, given));
    else if (!strcmp(command, "ENQ")) answer(locks_enqueue(&table, job, kind, id, LOCKS_NO_QUOTA, terms, given));
    else if (!strcmp(command, "DEQ") && kind == 0) answer(locks_dequeue(&table, job, terms, given));
    else if (!strcmp(command, "DEQ") && kind == 1) answer(locks_dequeue_all(&table, job));
    else if (!strcmp(command, "DEQ") && kind == 2) answer(locks_dequeue_id(&table, job, id));
    else if (!strcmp(command, "DEQ")) answer(no_such_kind(job));
    else if (!strcmp(command, "FREE")) answer(locks_release(&table, job));
    else if (!strcmp(command, "SHOW")) show();
    else if (!strcmp(command, "WAITS")) show_waits();
    else if (!strcmp(command, "STAT")) show_status(job, terms, given);
}

int main(void)
{
    char line[LINE], *words[WORDS];
    if (locks_make(&table) != LOCKS_OK) return 1;
    while (fgets(line, sizeof line, stdin)) {
        size_t count = 0;
        line[strcspn(line, ";\r\n")] = 0;
        for (char *word = strtok(line, " "); word && count < WORDS; word = strtok(NULL, " ")) words[count++] = word;
        if (count) obey(words, count);
    }
    locks_free(&table);
    return 0;
}
