/*
 * Times the library beside the plain C peer, in one process and on the same inputs: the list check and the settlement of 1, 10, 50
 * and 100 notices, and the medium-power settlement of 1 and 25 notices of four hours and of 33 of three. Before anything is timed both
 * must give the same answers and the same output bytes.
 */
#include <ibisladder.h>
#include <stdbool.h>
#include <stdio.h>
#include <stdlib.h>
#include <string.h>

#include "peer.h"
#include "power_peer.h"
#include "timing.h"
#include "winter.h"

typedef uint32_t check_call(uint32_t, uint32_t, const uint8_t *, size_t);
typedef uint32_t settle_call(uint32_t, const uint8_t *, size_t, uint32_t, const uint8_t *, size_t, uint8_t *, size_t);
typedef uint32_t power_call(uint32_t, const uint8_t *, size_t, const uint8_t *, size_t, const uint8_t *, size_t, uint8_t *, size_t,
                            uint8_t *, size_t);

struct side {
    check_call *check;
    settle_call *settle;
    power_call *power;
    uint8_t out[OUT_BYTES];
    uint8_t totals[TOTALS_BYTES];
};

/* The first notices of the winter, or of a site in it, for one side. */
struct job {
    struct side *side;
    const struct full_winter *winter;
    const struct site *site;
    size_t notices;
};

/* The calls are taken from memory that the compiler cannot see through: it can neither inline the peer nor drop a call. */
static struct side *volatile library = &(struct side){ibisladder_check, ibisladder_settle, ibisladder_power, {0}, {0}};
static struct side *volatile peer = &(struct side){peer_check, peer_settle, peer_power, {0}, {0}};

static struct full_winter winter;
static struct site four_hours, three_hours;

static size_t run_check(const void *given)
{
    const struct job *job = given;
    return job->side->check(WINTER, 1, job->winter->list, job->notices * NOTICE_BYTES);
}

static size_t run_settle(const void *given)
{
    const struct job *job = given;
    return job->side->settle(WINTER, job->winter->book, BOOK_BYTES, PRICE, job->winter->list, job->notices * NOTICE_BYTES,
                             job->side->out, OUT_BYTES);
}

static size_t run_power(const void *given)
{
    const struct job *job = given;
    return job->side->power(WINTER, job->winter->book, BOOK_BYTES, job->site->list, job->notices * NOTICE_BYTES,
                            job->site->references, job->notices * REFERENCE_BYTES, job->side->out, OUT_BYTES, job->side->totals,
                            TOTALS_BYTES);
}

static void print_times(const char *name, timed_call *call, const struct site *site, size_t notices)
{
    struct job ours = {library, &winter, site, notices}, other = {peer, &winter, site, notices};
    struct times best = best_times(call, &ours, &other);
    printf("%-7s %7zu %12.1f %12.1f %8.2f", name, notices, best.library, best.peer, best.library / best.peer);
    if (notices == 1)
        printf("   %+.3f microseconds", (best.library - best.peer) / 1000);
    printf("\n");
}

static void mark_outputs(struct side *side)
{
    memset(side->out, 0xA5, OUT_BYTES);
    memset(side->totals, 0xA5, TOTALS_BYTES);
}

/* Whether both accept with the same bytes: also those behind the last line, which both must leave. */
static bool agree(timed_call *call, const struct site *site, size_t notices)
{
    struct job ours = {library, &winter, site, notices}, other = {peer, &winter, site, notices};
    mark_outputs(library);
    mark_outputs(peer);
    return call(&ours) == 0 && call(&other) == 0 && memcmp(library->out, peer->out, OUT_BYTES) == 0 &&
           memcmp(library->totals, peer->totals, TOTALS_BYTES) == 0;
}

/* Ends the program unless both do the same at every number of notices. */
static void compare(timed_call *call, const struct site *site, size_t most)
{
    for (size_t notices = 0; notices <= most; notices++)
        if (!agree(call, site, notices)) {
            fprintf(stderr, "bench: the library and the peer differ at %zu notices, or refuse them\n", notices);
            exit(EXIT_FAILURE);
        }
}

int main(void)
{
    static const size_t sizes[] = {1, 10, 50, 100};
    fill_winter(&winter);
    fill_site(&four_hours, 4);
    fill_site(&three_hours, 3);
    compare(run_check, NULL, MOST_NOTICES);
    compare(run_settle, NULL, MOST_NOTICES);
    compare(run_power, &four_hours, FOUR_HOUR_NOTICES);
    compare(run_power, &three_hours, THREE_HOUR_NOTICES);
    printf("same answers and output bytes at 0 to %d notices, at a site at 0 to %d\n", MOST_NOTICES, THREE_HOUR_NOTICES);
    printf("%-7s %7s %12s %12s %8s\n", "call", "notices", "library, ns", "peer, ns", "ratio");
    for (size_t i = 0; i < sizeof sizes / sizeof sizes[0]; i++)
        print_times("check", run_check, NULL, sizes[i]);
    for (size_t i = 0; i < sizeof sizes / sizeof sizes[0]; i++)
        print_times("settle", run_settle, NULL, sizes[i]);
    print_times("power", run_power, &four_hours, 1);
    print_times("power", run_power, &four_hours, FOUR_HOUR_NOTICES);
    print_times("power", run_power, &three_hours, THREE_HOUR_NOTICES);
    return EXIT_SUCCESS;
}
