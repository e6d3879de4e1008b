/* locks.h: a lock table with exact rules, for up to 63 jobs and 1,024 requests. docs/LIBRARY.md is the page about it,
 * docs/LOCKS.md has the rules.
 *
 * The table is one list of requests in order of arrival. A request asks for up to 16 locks, and it owns all of them or
 * none: all, as soon as no earlier request conflicts with one of its wants. Nobody overtakes.
 *
 * The table never blocks, starts no thread and reads no clock. Each call returns at once. If a call makes room for
 * requests that waited, it puts their grants into a list (locks_grants, locks_grant), and the caller tells their jobs.
 *
 * The caller must keep these rules. Nothing checks them.
 *   1. A `locks` is LOCKS_NONE at first. Afterwards only these functions change it, and nobody uses a copy of it.
 *   2. Only one call at a time uses a `locks`, also if there are several threads: put a mutex around it.
 *   3. Each pointer points to as many values as the call says. It is aligned and not null, even if the count is 0. What
 *      a call writes to overlaps nothing else that the call is passed.
 *   4. malloc, realloc and free are one allocator, whose blocks are aligned to 16 bytes. No call is made from a signal
 *      handler, or in the forked child of a process with threads.
 * Everything else is refused by a code: a bad job, kind, id, count, name, flag, level, group or pool, a handle without a
 * table, and no memory.
 *
 * .ci/header.py compares each number, size and prototype below with the library's sources, and writes the numbers. */
#ifndef LOCKS_H
#define LOCKS_H

#include <stddef.h>
#include <stdint.h>
#include <string.h>

#ifdef __cplusplus
extern "C" {
#endif

/* The handle of a table. */
typedef struct {
    void *table; /* for the library alone */
} locks;

#define LOCKS_NONE {NULL}

enum {
    LOCKS_JOBS = 63,       /* jobs are numbered from 1 to this */
    LOCKS_REQUESTS = 1024, /* the most requests at a time */
    LOCKS_WANTS = 16,      /* the most locks of a request */
    LOCKS_NAME = 30,       /* the most bytes of a name */
    LOCKS_NO_QUOTA = 65535 /* a quota that no job reaches */
};

/* What a call returns. 1 to 18 and 33 to 36 are refusals: they change nothing. One exception: a request of kind
 * LOCKS_NOTIFY that returns LOCKS_NOT_GRANTED stays in the list. */
enum {
    LOCKS_OK = 0,             /* done: owned, given up, made. Of a question: no */
    LOCKS_NOT_GRANTED = 1,    /* the request is not granted at once */
    LOCKS_BAD_KIND = 2,       /* there is no such kind of request */
    LOCKS_BAD_ID = 3,         /* the id has more than 18 bits */
    LOCKS_BAD_COUNT = 4,      /* no lock, or more than 16 */
    LOCKS_BAD_NAME = 6,       /* not 1 to 30 bytes of UTF-8, or a code of more than 33 bits */
    LOCKS_BAD_TERMS = 7,      /* a flag above 15, a level above 511, or a group of more than 18 bits */
    LOCKS_BAD_POOL = 8,       /* size 0, an amount of 0 or above the size, a shared pool, or a group of a want not shared */
    LOCKS_DIFFERS = 9,        /* a present want of this lock has another level, or another pool size */
    LOCKS_LEVEL_ORDER = 10,   /* the level is not above those of the job's earlier wants */
    LOCKS_NAMED_ALREADY = 11, /* the lock is named twice, or the job has a want of it */
    LOCKS_NOT_PRESENT = 12,   /* the job has no such want or request. Of a reading: nothing is at this place */
    LOCKS_WOULD_LOSE = 13,    /* the change would take a grant away */
    LOCKS_FULL = 14,          /* the table has 1,024 requests */
    LOCKS_OVER_QUOTA = 16,    /* the job has as many requests as its quota allows */
    LOCKS_WAITS = 32,         /* the job waits. Of a question: yes */
    LOCKS_BUSY = 33,          /* the job waits for an earlier request, so it can make no call */
    LOCKS_BAD_JOB = 34,       /* no job has this number */
    LOCKS_NO_TABLE = 35,      /* the handle has no table. Of locks_make: it has one already */
    LOCKS_NO_MEMORY = 36      /* there is no memory for a table */
};

/* Kinds of requests: what happens if the request is not granted at once. */
enum {
    LOCKS_BLOCKING = 0, /* the job waits. It can make no call until it is granted, released or withdrawn */
    LOCKS_TRY = 1,      /* the request is refused and does not stay */
    LOCKS_NOTIFY = 2    /* the request stays and the job goes on. The grant comes by the list of grants */
};

/* Flags of a lock, to be added. */
enum {
    LOCKS_SHARED = 1, /* others of the same group may own it at the same time */
    LOCKS_BYPASS = 2, /* the rule of rising levels does not apply */
    LOCKS_OWN = 4,    /* the name is the job's own: other jobs mean another lock by it */
    LOCKS_CODE = 8    /* the name is the number `code` */
};

/* One lock of a call. All fields that are not needed are 0. */
typedef struct {
    uint8_t name[32];
    uint64_t code;
    uint32_t flags;
    uint32_t length;      /* how many bytes the name has */
    uint32_t level;       /* 0 to 511. A job asks for its locks by rising levels */
    uint32_t group;       /* of sharers, 18 bits */
    uint32_t pool_size;   /* a pool: how much there is */
    uint32_t pool_amount; /* a pool: how much is wanted */
} lock_terms;

/* A grant that a call made. */
typedef struct {
    uint32_t job;
    uint32_t id;
} lock_grant;

/* The status of a lock, for the job that asks. */
typedef struct {
    uint32_t flags;       /* 1 the job owns it, 2 the job waits for it, 4 it is owned exclusively without a pool */
    uint32_t level;       /* of all present wants of it, or 0 */
    uint32_t first_owner; /* a job, or 0 */
    uint32_t owners;      /* how many requests own it */
    uint32_t waiters;     /* how many requests wait for it */
    uint32_t amount;      /* how much of the pool is owned */
} lock_status;

/* A request in the list. */
typedef struct {
    uint32_t job;
    uint32_t id;
    uint32_t kind;
    uint32_t flags; /* 1 it is granted, 2 its job was notified */
    uint32_t wants; /* how many locks it asks for */
} lock_request;

#if defined(__cplusplus)
#define LOCKS_IS static_assert
#else
#define LOCKS_IS _Static_assert
#endif
LOCKS_IS(sizeof(lock_terms) == 64, "the library's layout");
LOCKS_IS(sizeof(lock_grant) == 8, "the library's layout");
LOCKS_IS(sizeof(lock_status) == 24, "the library's layout");
LOCKS_IS(sizeof(lock_request) == 20, "the library's layout");
#undef LOCKS_IS

/* Makes a table without requests, if the handle has none. It takes some 6 MB. No other call takes memory. */
uint32_t locks_make(locks *table);
/* Frees the table, if there is one. The handle is LOCKS_NONE again. */
void locks_free(locks *table);

/* Asks for locks, all together: LOCKS_OK, LOCKS_WAITS, or a refusal. `id` is the job's own number for the request, and
 * `quota` is how many requests the job may have. */
uint32_t locks_enqueue(locks *table, uint8_t job, uint32_t kind, uint32_t id, uint16_t quota, const lock_terms *terms, size_t count);
/* Makes the job's wants of these locks shared or exclusive: all of them, or none. */
uint32_t locks_modify(locks *table, uint8_t job, const lock_terms *terms, size_t count);
/* Gives up the job's wants of these locks, all of its requests, or its requests of an id. */
uint32_t locks_dequeue(locks *table, uint8_t job, const lock_terms *terms, size_t count);
uint32_t locks_dequeue_all(locks *table, uint8_t job);
uint32_t locks_dequeue_id(locks *table, uint8_t job, uint32_t id);
/* Removes all requests of a job that is gone, also if it waits. */
uint32_t locks_release(locks *table, uint8_t job);
/* Removes the requests by which some jobs wait: job j if the bit of weight 2^j is set. What these jobs own stays. */
uint32_t locks_withdraw(locks *table, uint64_t jobs);

/* The grants that the last of the calls above made, of requests that were there before it, in order of arrival. */
size_t locks_grants(locks *table);
uint32_t locks_grant(locks *table, size_t i, lock_grant *out);

/* The status of a lock, for the job that asks (0: nobody). Of `lock` only the name counts, with LOCKS_OWN and LOCKS_CODE. */
uint32_t locks_status(locks *table, uint8_t job, const lock_terms *lock, lock_status *out);
/* LOCKS_WAITS or LOCKS_OK: whether a job waits, whether it waits for another, and whether it is in a deadlock (a circle
 * of jobs of which each waits for the next). */
uint32_t locks_waiting(locks *table, uint8_t job);
uint32_t locks_waits_for(locks *table, uint8_t job, uint8_t other);
uint32_t locks_in_circle(locks *table, uint8_t job);
/* The list of requests, in order of arrival, and the locks of the request at a place of it. What locks_want writes can be
 * asked for again. */
size_t locks_requests(locks *table);
uint32_t locks_request(locks *table, size_t i, lock_request *out);
uint32_t locks_want(locks *table, size_t i, size_t k, lock_terms *out);

/* A lock by its name: exclusive, of level 0. If the name is too long, the call that uses it is refused. */
static inline lock_terms locks_named(const char *name)
{
    lock_terms lock;
    size_t length = strlen(name);
    memset(&lock, 0, sizeof lock);
    lock.length = length > 32 ? 33 : (uint32_t)length;
    memcpy(lock.name, name, length > 32 ? 32 : length);
    return lock;
}

#ifdef __cplusplus
}
#endif
#endif
