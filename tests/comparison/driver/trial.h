/* One call of the library, made again and elsewhere, and held to all that it may not do.
 *
 * Whatever is lent, a call must touch nothing beside it, leave list, references and book as they
 * were, and give an answer that the rules allow. A refusal must leave the outputs as they were,
 * an accepted call all that is behind the last line or total. The same call must give the same
 * answer, lines and totals once more, in other places, and over other outputs. The first
 * difference is said, and ends the program with exit status 1. */
#ifndef TRIAL_H
#define TRIAL_H

#include <stdbool.h>
#include <stddef.h>
#include <stdint.h>

#include "ibisladder.h"
#include "parts.h"

enum {
    NUMBER_BYTES = IBISLADDER_NUMBER_BYTES,
    NOTICE_BYTES = IBISLADDER_NOTICE_NUMBERS * IBISLADDER_NUMBER_BYTES,
    LINE_BYTES = IBISLADDER_LINE_NUMBERS * IBISLADDER_OUT_NUMBER_BYTES,
    MOST_NOTICES = IBISLADDER_MOST_NOTICES,
    LONGEST_BOOK = IBISLADDER_DAYS_LEAP * IBISLADDER_HOURS * NUMBER_BYTES
};

/* Of the medium-power settlement: the bytes of its totals, its two refusals, and its bounds. */
enum {
    TOTALS_BYTES = 3 * IBISLADDER_OUT_NUMBER_BYTES,
    REFUSED_REFERENCES = 40,
    REFUSED_REFERENCE = 41,
    HIGHEST_REFERENCE = 10000000,
    HIGHEST_CREDIT = 46170000
};

/* The rooms of the parts, and how far at most a part lies from its guard page. */
enum {
    BOOK_ROOM = 16384,
    LIST_ROOM = 8192,
    REFERENCES_ROOM = 4096,
    OUT_ROOM = 8192,
    TOTALS_ROOM = 4096,
    FARTHEST = 7
};

enum function { CHECK, SETTLE, POWER, FUNCTIONS };

/* Bytes to lend a copy of, and how far from the guard page. */
struct lent {
    const uint8_t *bytes;
    size_t length;
    size_t distance;
};

/* The list check is lent the list alone, and only the medium-power settlement references and
 * totals. A list or references inside the book are lent there at first, and as bytes of their
 * own elsewhere. */
struct trial {
    enum function function;
    uint32_t winter;
    uint32_t number; /* the profile, or the price */
    struct lent list, references, book, out, totals;
    bool list_in_book; /* list.bytes is a part of book.bytes */
    bool references_in_book;
};

/* Must come before the first trial: at which guard page the parts are to lie. */
void set_up_trials(enum side side);

void try_call(const struct trial *trial);

/* The length of a winter's book in bytes, whether the winter is a right one or not. */
size_t book_length(uint32_t winter);

/* Counts an answer to a call that was made beside the trials. */
void count_answer(enum function function, uint32_t answer);

/* Ends the program: a call beside the trials did something else. */
_Noreturn void say_difference(const char *difference);

/* Prints how many calls were made, and how often each number and each line's code was given. */
void print_counts(void);

#endif
