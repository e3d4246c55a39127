/*
 * The winter that bench.c and stack.c measure: a list of 100 notices that is accepted, and a book of sound readings. And lists of a
 * medium-power site, with their references.
 */
#ifndef WINTER_H
#define WINTER_H

#include <stdint.h>

#define WINTER 2026
#define PRICE 51967
#define MOST_NOTICES 100
#define NOTICE_BYTES 12
#define BOOK_BYTES (4 * 24 * 151)
#define LIST_BYTES (NOTICE_BYTES * MOST_NOTICES)
#define OUT_BYTES (32 * MOST_NOTICES)
#define THREE_HOUR_NOTICES 33 /* of a site, as many as the winter's 100 hours allow */
#define FOUR_HOUR_NOTICES 25
#define REFERENCE_BYTES 4
#define TOTALS_BYTES 24

struct full_winter {
    uint8_t book[BOOK_BYTES];
    uint8_t list[LIST_BYTES];
};

/* Notices of a medium-power site, all of so many hours. */
struct site {
    uint8_t list[NOTICE_BYTES * THREE_HOUR_NOTICES];
    uint8_t references[REFERENCE_BYTES * THREE_HOUR_NOTICES];
};

void fill_winter(struct full_winter *winter);
void fill_site(struct site *site, uint32_t hours);

#endif
