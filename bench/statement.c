/*
 * Times the library's call on a text beside the plain C peer, in one process: on the largest text, and on the same winter with a line
 * a day.
 *
 *     statement FILE..
 *
 * Before anything is timed both must give the same statement: of the two texts and of those of the files.
 */
#include <stdio.h>
#include <stdlib.h>
#include <string.h>

#include "statement_peer.h"
#include "text.h"
#include "timing.h"

typedef size_t statement_call(const uint8_t *text, size_t length, uint8_t *out, size_t room);

/* The library's call, which bench/run-statement exports under this name. */
size_t measured_statement(const uint8_t *text, size_t length, uint8_t *out, size_t room);

struct text {
    const char *name;
    size_t length;
    uint8_t bytes[LARGEST_TEXT + 2]; /* a byte more than a text may have, and a 0 */
};

struct side {
    statement_call *statement;
    uint8_t out[STATEMENT_BYTES];
};

struct job {
    struct side *side;
    const struct text *text;
};

static size_t call_peer(const uint8_t *text, size_t length, uint8_t *out, size_t room)
{
    return room < STATEMENT_BYTES ? 0 : peer_statement(text, length, out);
}

/* The calls are taken from memory that the compiler cannot see through: it can neither inline the peer nor drop a call. */
static struct side *volatile library = &(struct side){measured_statement, {0}};
static struct side *volatile peer = &(struct side){call_peer, {0}};

static size_t run_statement(const void *given)
{
    const struct job *job = given;
    return job->side->statement(job->text->bytes, job->text->length, job->side->out, STATEMENT_BYTES);
}

/* Ends the program unless both give the same statement. */
static void compare(const struct text *text)
{
    struct job ours = {library, text}, other = {peer, text};
    size_t length = run_statement(&ours), right = run_statement(&other);
    if (length != right || memcmp(library->out, peer->out, right) != 0 || peer->out[0] != 'w') { /* for `winter=`; else it is `refused=` */
        fprintf(stderr, "statement: the library and the peer differ on %s, or refuse it\n", text->name);
        exit(EXIT_FAILURE);
    }
}

/* Texts. */

static void read_text(struct text *text, const char *name)
{
    FILE *file = fopen(name, "rb");
    if (file == NULL) {
        fprintf(stderr, "statement: cannot read %s\n", name);
        exit(EXIT_FAILURE);
    }
    text->name = name;
    text->length = fread(text->bytes, 1, LARGEST_TEXT, file);
    fclose(file);
}

static void print_times(const char *name, const struct text *text)
{
    struct job ours = {library, text}, other = {peer, text};
    struct times best = best_times(run_statement, &ours, &other);
    printf("%-12s %7zu %12.2f %12.2f %8.2f\n", name, text->length, best.library / 1000, best.peer / 1000,
           best.library / best.peer);
}

int main(int count, char **names)
{
    static struct text largest = {.name = "the largest"}, daily = {.name = "the daily one"}, text;
    largest.length = largest_text(largest.bytes);
    daily.length = daily_text(daily.bytes);
    compare(&largest);
    compare(&daily);
    for (int i = 1; i < count; i++) {
        read_text(&text, names[i]);
        compare(&text);
    }
    printf("same statements of %d texts\n", 2 + count - 1);
    printf("%-12s %7s %12s %12s %8s\n", "statement", "bytes", "library, us", "peer, us", "ratio");
    print_times("largest", &largest);
    print_times("a line a day", &daily);
    return EXIT_SUCCESS;
}
