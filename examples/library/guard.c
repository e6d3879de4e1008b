/* guard SOCKET [LIMIT]: clients take turns at files. A message "w NAME" asks for a file alone, "r NAME" together with other readers,
 * and "." gives all up. The answer is "yes", at once or when it is the client's turn, or "no CODE". A client that waits longer
 * than LIMIT milliseconds (5000) gets "no 17". Who hangs up gives up everything.
 *
 *     cc guard.c $(pkg-config --cflags --libs hirvodas-locks) -o guard */
#include "locks.h"
#include <poll.h>
#include <stdio.h>
#include <stdlib.h>
#include <sys/socket.h>
#include <sys/un.h>
#include <time.h>
#include <unistd.h>

enum { TOO_LATE = 17 };

static locks table = LOCKS_NONE;
static int limit = 5000;
static struct pollfd at[1 + LOCKS_JOBS]; /* at[0] listens, and at[j] is the client that is job j */
static int64_t ends[1 + LOCKS_JOBS];     /* when the wait of job j is over */

static int64_t now(void)
{
    struct timespec t;
    clock_gettime(CLOCK_MONOTONIC, &t);
    return (int64_t)t.tv_sec * 1000 + t.tv_nsec / 1000000;
}

static void say(uint32_t job, uint32_t code)
{
    char text[16] = "yes";
    if (code != LOCKS_OK) snprintf(text, sizeof text, "no %u", code);
    send(at[job].fd, text, strlen(text), MSG_NOSIGNAL);
}

static void tell_who_is_granted(void)
{
    lock_grant grant;
    for (size_t i = 0; locks_grant(&table, i, &grant) == LOCKS_OK; i++) say(grant.job, LOCKS_OK);
}

static void serve(uint8_t job, const char *text)
{
    lock_terms file = locks_named(text[0] ? text + 2 : "");
    if (text[0] == 'r') file.flags |= LOCKS_SHARED;
    uint32_t code = text[0] == '.' ? locks_dequeue_all(&table, job)
                                   : locks_enqueue(&table, job, LOCKS_BLOCKING, 1, LOCKS_NO_QUOTA, &file, 1);
    if (code == LOCKS_WAITS) ends[job] = now() + limit;
    else say(job, code);
    tell_who_is_granted();
}

static void hang_up(uint8_t job)
{
    close(at[job].fd);
    at[job].fd = -1;
    locks_release(&table, job);
    tell_who_is_granted();
}

/* Ends the waits that are over, all in one call. */
static void end_waits(void)
{
    uint64_t late = 0;
    for (uint8_t job = 1; job <= LOCKS_JOBS; job++)
        if (locks_waiting(&table, job) == LOCKS_WAITS && ends[job] <= now()) late |= (uint64_t)1 << job;
    if (late) locks_withdraw(&table, late);
    for (uint8_t job = 1; late && job <= LOCKS_JOBS; job++)
        if (late >> job & 1) say(job, TOO_LATE);
    if (late) tell_who_is_granted();
}

static void take_client(void)
{
    int fd = accept(at[0].fd, NULL, NULL), job = 1;
    while (job <= LOCKS_JOBS && at[job].fd >= 0) job++;
    if (job <= LOCKS_JOBS) at[job] = (struct pollfd){.fd = fd, .events = POLLIN};
    else if (fd >= 0) close(fd);
}

int main(int count, char **words)
{
    struct sockaddr_un name = {.sun_family = AF_UNIX};
    snprintf(name.sun_path, sizeof name.sun_path, "%s", count > 1 ? words[1] : "guard.socket");
    if (count > 2) limit = atoi(words[2]);
    for (int job = 0; job <= LOCKS_JOBS; job++) at[job] = (struct pollfd){.fd = -1, .events = POLLIN};
    at[0].fd = socket(AF_UNIX, SOCK_SEQPACKET, 0);
    if (bind(at[0].fd, (struct sockaddr *)&name, sizeof name) || listen(at[0].fd, 64) || locks_make(&table)) return 1;
    while (poll(at, 1 + LOCKS_JOBS, 100) >= 0) {
        for (uint8_t job = 1; job <= LOCKS_JOBS; job++) {
            char text[64] = "";
            if (at[job].fd < 0 || !at[job].revents) continue;
            if (recv(at[job].fd, text, sizeof text - 1, 0) > 0) serve(job, text);
            else hang_up(job);
        }
        end_waits();
        if (at[0].revents) take_client();
    }
}
