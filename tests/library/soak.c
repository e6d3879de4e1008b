/* Sixty clients, a thread each, call one table under a mutex: soak CALLS SEED SCRIPT ANSWERS. They ask for locks and wait for
 * them, change them, give them up, and hang up at random, also while they wait. Each call is written to SCRIPT as a line of
 * `lockmon queue`, and what it returned to ANSWERS. In the end all hang up, and the table has to be empty.
 *
 * A client that waits is told by whoever makes the call that grants its request. A client that finds itself in a circle of
 * waits hangs up, and so does one that was not told within some milliseconds. After SECONDS seconds no more calls are made. */
#include "locks.h"
#include <pthread.h>
#include <stdio.h>
#include <stdlib.h>
#include <time.h>
#include <unistd.h>

enum { CLIENTS = 60, NAMES = 24, LEVELS = 4, MOST = 3, PATIENCE = 20 * 1000 * 1000, SECONDS = 20 };

static locks table = LOCKS_NONE;
static pthread_mutex_t mutex = PTHREAD_MUTEX_INITIALIZER;
static pthread_cond_t told[CLIENTS + 1];
static pthread_barrier_t start;
static long left, made, hung_up, waited;
static time_t began;
static FILE *script, *answers;

static uint32_t draw(uint64_t *state, uint32_t limit)
{
    *state = *state * 6364136223846793005u + 1442695040888963407u;
    return (uint32_t)((*state >> 33) % limit);
}

/* Writes what a call returned, and tells the clients that it granted something. */
static uint32_t answered(uint32_t code)
{
    lock_grant grant;
    if (code == LOCKS_OK) fputs("OK\n", answers);
    else if (code == LOCKS_WAITS) fputs("WAIT\n", answers);
    else if (code == LOCKS_BUSY) fputs("BUSY\n", answers);
    else fprintf(answers, "CODE %u\n", code);
    for (size_t i = 0; locks_grant(&table, i, &grant) == LOCKS_OK; i++) {
        fprintf(answers, "GRANT %u %u\n", grant.job, grant.id);
        pthread_cond_signal(&told[grant.job]);
    }
    made++;
    if (--left % 1000 == 0 && time(NULL) - began > SECONDS) left = 0;
    return code;
}

/* Draws a lock, and writes it behind the line of the call. */
static lock_terms lock_at_random(uint64_t *state)
{
    char name[16];
    uint32_t number = draw(state, NAMES);
    snprintf(name, sizeof name, "N%u", number);
    lock_terms lock = locks_named(name);
    lock.level = number % LEVELS;
    fprintf(script, " %s/L%u", name, lock.level);
    if (draw(state, 2)) lock.flags |= LOCKS_SHARED, fputs("/S", script);
    if (draw(state, 4) == 0) lock.flags |= LOCKS_BYPASS, fputs("/B", script);
    return lock;
}

static size_t locks_at_random(uint64_t *state, lock_terms *terms)
{
    size_t count = 1 + draw(state, MOST);
    for (size_t i = 0; i < count; i++) terms[i] = lock_at_random(state);
    fputc('\n', script);
    return count;
}

static void hang_up(uint8_t job)
{
    fprintf(script, "FREE %u\n", job);
    hung_up++;
    answered(locks_release(&table, job));
}

/* Waits until the client is told of its grant, or hangs up. */
static void wait_for_grant(uint8_t job, uint64_t *state)
{
    struct timespec until;
    clock_gettime(CLOCK_REALTIME, &until);
    until.tv_nsec += PATIENCE;
    until.tv_sec += until.tv_nsec / 1000000000;
    until.tv_nsec %= 1000000000;
    waited++;
    int goes = draw(state, 20) == 0 || locks_in_circle(&table, job) == LOCKS_WAITS;
    while (locks_waiting(&table, job) == LOCKS_WAITS) {
        if (goes) hang_up(job);
        else goes = pthread_cond_timedwait(&told[job], &mutex, &until) != 0;
    }
}

/* Makes one call. */
static void call(uint8_t job, uint64_t *state)
{
    lock_terms terms[MOST];
    uint32_t what = draw(state, 100), id = draw(state, 4), kind = draw(state, 6);
    kind = kind > 2 ? LOCKS_BLOCKING : kind;
    if (what < 45) {
        fprintf(script, "ENQ %u %u %u", job, kind, id);
        size_t count = locks_at_random(state, terms);
        if (answered(locks_enqueue(&table, job, kind, id, LOCKS_NO_QUOTA, terms, count)) == LOCKS_WAITS) wait_for_grant(job, state);
    } else if (what < 55) {
        fprintf(script, "ENQ %u 3 0", job);
        answered(locks_modify(&table, job, terms, locks_at_random(state, terms)));
    } else if (what < 70) {
        fprintf(script, "DEQ %u 0", job);
        answered(locks_dequeue(&table, job, terms, locks_at_random(state, terms)));
    } else if (what < 85) {
        fprintf(script, "DEQ %u 1\n", job);
        answered(locks_dequeue_all(&table, job));
    } else if (what < 95) {
        fprintf(script, "DEQ %u 2 %u\n", job, id);
        answered(locks_dequeue_id(&table, job, id));
    } else {
        hang_up(job);
    }
}

static void *client(void *number)
{
    uint8_t job = (uint8_t)(size_t)number;
    uint64_t state = (uint64_t)job * 7919 + (uint64_t)left;
    pthread_barrier_wait(&start);
    pthread_mutex_lock(&mutex);
    while (left > 0) {
        call(job, &state);
        pthread_mutex_unlock(&mutex);
        // (else whoever has the mutex would mostly get it again)
        if (draw(&state, 4) == 0) usleep(1);
        pthread_mutex_lock(&mutex);
    }
    hang_up(job);
    pthread_mutex_unlock(&mutex);
    return NULL;
}

int main(int count, char **words)
{
    pthread_t threads[CLIENTS + 1];
    if (count != 5) return 2;
    left = atol(words[1]) + atol(words[2]) % 1000;
    began = time(NULL);
    script = fopen(words[3], "w");
    answers = fopen(words[4], "w");
    if (!script || !answers || locks_make(&table) != LOCKS_OK) return 3;
    pthread_barrier_init(&start, NULL, CLIENTS);
    for (size_t job = 1; job <= CLIENTS; job++) pthread_cond_init(&told[job], NULL);
    for (size_t job = 1; job <= CLIENTS; job++) pthread_create(&threads[job], NULL, client, (void *)job);
    for (size_t job = 1; job <= CLIENTS; job++) pthread_join(threads[job], NULL);
    size_t present = locks_requests(&table);
    fputs("SHOW\n", script);
    fputs("END\n", answers);
    if (fclose(script) || fclose(answers)) return 3;
    printf("%ld calls, %ld waits, %ld times a client hung up, %zu requests left\n", made, waited, hung_up, present);
    locks_free(&table);
    return present != 0;
}
