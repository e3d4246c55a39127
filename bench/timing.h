/* Times a call on two jobs in one process: the library's and the peer's. */
#ifndef TIMING_H
#define TIMING_H

#include <stddef.h>

/* A call that is timed. It gives a number, so that no compiler may drop it. */
typedef size_t timed_call(const void *job);

/* Nanoseconds a call. */
struct times {
    double library, peer;
};

/* The best of all rounds for each. The rounds alternate, so that a busy machine troubles both alike. */
struct times best_times(timed_call *call, const void *library, const void *peer);

#endif
