/* See timing.h. */
#define _POSIX_C_SOURCE 200809L

#include "timing.h"

#include <time.h>

#define ROUNDS 15
#define ROUND_NS 5e6 /* long enough for the clock, short enough that a round without a disturbance is found */

static volatile size_t given; /* where the answers go */

static double nanoseconds(void)
{
    struct timespec now;
    clock_gettime(CLOCK_MONOTONIC, &now);
    return (double)now.tv_sec * 1e9 + (double)now.tv_nsec;
}

static double time_of(timed_call *call, const void *job, long calls)
{
    double began = nanoseconds();
    for (long i = 0; i < calls; i++)
        given = call(job);
    return (nanoseconds() - began) / (double)calls;
}

/* How many calls fill a round. */
static long calls_of_round(timed_call *call, const void *job)
{
    long calls = 1;
    while (time_of(call, job, calls) * (double)calls < ROUND_NS / 2)
        calls *= 2;
    return calls;
}

static double smaller(double one, double other)
{
    return one < other ? one : other;
}

struct times best_times(timed_call *call, const void *library, const void *peer)
{
    long library_calls = calls_of_round(call, library), peer_calls = calls_of_round(call, peer);
    struct times best = {1e30, 1e30};
    for (int round = 0; round < ROUNDS; round++) {
        best.library = smaller(best.library, time_of(call, library, library_calls));
        best.peer = smaller(best.peer, time_of(call, peer, peer_calls));
    }
    return best;
}
