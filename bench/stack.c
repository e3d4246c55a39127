/*
 * Measures the stack that each call needs: it runs on a thread whose stack was painted before, and what is no longer paint was
 * used. The figure counts from the frame that calls, so it holds a few bytes of the caller, and it holds what memcpy and memset
 * need. Stack that is reserved and not written to does not show; frames.py reads that from the code.
 */
#define _POSIX_C_SOURCE 200809L

#include <ibisladder.h>
#include <pthread.h>
#include <stdio.h>
#include <stdlib.h>
#include <string.h>

#include "winter.h"

#define STACK_BYTES (1 << 18)
#define PAINT 0xC7

struct task {
    void (*call)(void);
    uint8_t *frame; /* where the calling frame lies */
};

static struct full_winter winter;
static struct site site;
static uint8_t out[OUT_BYTES];
static uint8_t totals[TOTALS_BYTES];
static uint8_t *stack;

static void call_nothing(void)
{
}

/* Accepted and refused, since each may go another way. */
static void call_check(void)
{
    ibisladder_check(WINTER, 1, winter.list, LIST_BYTES);
    ibisladder_check(WINTER, 2, winter.list, LIST_BYTES);
    ibisladder_check(WINTER, 1, winter.list, LIST_BYTES - 1);
}

static void call_settle(void)
{
    ibisladder_settle(WINTER, winter.book, BOOK_BYTES, PRICE, winter.list, LIST_BYTES, out, OUT_BYTES);
    ibisladder_settle(WINTER, winter.book, BOOK_BYTES, PRICE, winter.list, LIST_BYTES, out, OUT_BYTES - 1);
}

static void call_power(void)
{
    ibisladder_power(WINTER, winter.book, BOOK_BYTES, site.list, sizeof site.list, site.references, sizeof site.references, out,
                     OUT_BYTES, totals, TOTALS_BYTES);
    ibisladder_power(WINTER, winter.book, BOOK_BYTES, site.list, sizeof site.list, site.references, sizeof site.references, out,
                     OUT_BYTES, totals, TOTALS_BYTES - 1);
}

static void *run_task(void *given)
{
    struct task *task = given;
    task->frame = __builtin_frame_address(0);
    task->call();
    return NULL;
}

/* Bytes of stack used below the calling frame. */
static long stack_of(void (*call)(void))
{
    struct task task = {call, NULL};
    pthread_attr_t attributes;
    pthread_t thread;
    memset(stack, PAINT, STACK_BYTES);
    if (pthread_attr_init(&attributes) != 0 || pthread_attr_setstack(&attributes, stack, STACK_BYTES) != 0 ||
        pthread_create(&thread, &attributes, run_task, &task) != 0 || pthread_join(thread, NULL) != 0) {
        fprintf(stderr, "stack: cannot run a thread on a stack of its own\n");
        exit(EXIT_FAILURE);
    }
    pthread_attr_destroy(&attributes);
    uint8_t *deepest = stack;
    while (*deepest == PAINT)
        deepest++;
    return (long)(task.frame - deepest);
}

int main(void)
{
    stack = aligned_alloc(4096, STACK_BYTES);
    if (stack == NULL)
        return EXIT_FAILURE;
    fill_winter(&winter);
    fill_site(&site, 3);
    long nothing = stack_of(call_nothing), check = stack_of(call_check), settle = stack_of(call_settle), power = stack_of(call_power);
    printf("stack written to, bytes: ibisladder_check %ld, ibisladder_power %ld, ibisladder_settle %ld (calling nothing %ld)\n", check,
           power, settle, nothing);
    free(stack);
    return EXIT_SUCCESS;
}
