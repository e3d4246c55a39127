/*
 * The layers below the settlement, for the comparison and for scripts/calendar alone: the crate probe exports them. An answer of 64
 * bits is 2^32 times the refusal number, or else its values, the first of two 2^16 times as high as the second.
 */
#ifndef PROBE_H
#define PROBE_H

#include <stddef.h>
#include <stdint.h>

uint64_t probe_days(uint32_t winter);
uint64_t probe_easter(uint32_t year); /* month and day */
uint64_t probe_forward(uint32_t winter); /* the book day of the Sunday the clocks go forward, and of that they go back */
uint64_t probe_back(uint32_t winter);
uint64_t probe_weekday(uint32_t winter, uint32_t day);
uint64_t probe_kind(uint32_t winter, uint32_t day); /* three bits: in the winter period, a weekend day, excluded */
uint64_t probe_date(uint32_t winter, uint32_t day); /* month and day */
uint64_t probe_book_day(uint32_t winter, uint32_t month, uint32_t day);

/* A day's part of a book: how many readings it has, and that of an hour, 0 where it has no such hour. */
size_t probe_part_length(uint32_t winter, const uint32_t *book, size_t numbers, uint32_t day);
uint32_t probe_part_reading(uint32_t winter, const uint32_t *book, size_t numbers, uint32_t day, size_t hour);

/* The event hours of a list: a day's mask, 0 past day 151; start and end of the event that they hold on a day, in the band of an hour. */
uint32_t probe_mask(const uint32_t *list, size_t numbers, size_t day);
uint32_t probe_event_start(const uint32_t *list, size_t numbers, uint32_t day, uint32_t start);
uint32_t probe_event_end(const uint32_t *list, size_t numbers, uint32_t day, uint32_t start);

/* One event, by the masks of a list: code and place, or the refusal; and its energy, 0 where it is unsettled or refused. */
uint64_t probe_event_fault(uint32_t winter, const uint32_t *book, size_t readings, const uint32_t *list, size_t numbers,
                           uint32_t day, uint32_t start, uint32_t end);
uint64_t probe_event_energy(uint32_t winter, const uint32_t *book, size_t readings, const uint32_t *list, size_t numbers,
                            uint32_t day, uint32_t start, uint32_t end);

/* The call on a text: how many bytes it wrote at the front of the output, 0 where that is too short. */
size_t probe_statement(const uint8_t *text, size_t bytes, uint8_t *output, size_t room);

#endif
