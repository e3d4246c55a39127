/* Answers queries on the layers below the settlement, a line each, for the comparison with the
 * second program and for scripts/calendar.
 *
 * Standard input starts with the number of a layer, and its queries follow; every number has ten
 * decimal digits and one byte more.
 *
 * 1, the calendar: three numbers w, a and b. A line has these and then, as NAME=number,values, the
 * answer of each call: on winter or year w, on day a, on the date of month a and day b, and on day
 * a's part of a book of b numbers. A reading past the part's end comes last, as past=reading, if
 * it is not 0.
 *
 * 2, the event hours of a list: how many numbers it has, and these. A line has the event hours of
 * each day that has any, as DAY:MASK, where days that no book has are asked too, and each notice's
 * event as it comes back from them, as START+LENGTH.
 *
 * 3, the energy of an event: winter, count, length, seed, low, spread, changes, day, start and end,
 * then the numbers of a list, then pairs of a place and a value, which are set in the book that is
 * made from length, seed, low and spread. A line has the number of the refusal alone, or 0 and then
 * the event's code, place and energy. */

#include <inttypes.h>
#include <stdbool.h>
#include <stdio.h>
#include <stdlib.h>

#include "probe.h"

enum { HOURS = 24, DAYS = 152, LONGEST_BOOK = 3648, ANY_BOOK = 3672, MOST_NUMBERS = 400 };

static uint32_t list[MOST_NUMBERS], pairs[MOST_NUMBERS], book[ANY_BOOK];

static void give_up(const char *reason)
{
    fprintf(stderr, "%s\n", reason);
    exit(2);
}

/* Reads so many numbers; false where there is nothing more to read. */
static bool read_numbers(uint32_t *numbers, size_t count)
{
    for (size_t i = 0; i < count; i++) {
        char digits[11];
        size_t got = fread(digits, 1, sizeof digits, stdin);
        if (got == 0 && i == 0)
            return false;
        if (got < sizeof digits)
            give_up("a query is cut short");
        numbers[i] = 0;
        for (size_t k = 0; k < 10; k++)
            numbers[i] = 10 * numbers[i] + (uint32_t)(digits[k] - '0');
    }
    return true;
}

/* Reads what follows the header of a query. */
static void read_rest(uint32_t *numbers, size_t count)
{
    if (count > MOST_NUMBERS)
        give_up("a query is too long");
    if (count > 0 && !read_numbers(numbers, count))
        give_up("a query is cut short");
}

/* The calendar. */

static uint32_t refusal(uint64_t answer)
{
    return (uint32_t)(answer >> 32);
}

static void put_answer(const char *name, uint64_t answer)
{
    printf(" %s=%" PRIu32, name, refusal(answer));
    if (refusal(answer) == 0)
        printf(",%" PRIu32, (uint32_t)answer);
}

/* An answer with two values. */
static void put_pair(const char *name, uint64_t answer)
{
    printf(" %s=%" PRIu32, name, refusal(answer));
    if (refusal(answer) == 0)
        printf(",%" PRIu32 ",%" PRIu32, (uint32_t)answer >> 16, (uint32_t)answer & 0xFFFF);
}

/* In the winter period, a weekend day, excluded. */
static void put_kind(uint64_t answer)
{
    printf(" kind=%" PRIu32, refusal(answer));
    if (refusal(answer) == 0)
        printf(",%d,%d,%d", (int)(answer >> 2 & 1), (int)(answer >> 1 & 1), (int)(answer & 1));
}

/* How many readings a day's part has, with the first and the last. */
static void put_part(uint32_t winter, size_t numbers, uint32_t day)
{
    size_t length = probe_part_length(winter, book, numbers, day);
    printf(" readings=%zu", length);
    if (length > 0)
        printf(",%" PRIu32 ",%" PRIu32, probe_part_reading(winter, book, numbers, day, 0),
               probe_part_reading(winter, book, numbers, day, length - 1));
}

/* Nothing is past a part's end: such an hour's reading is 0. */
static void put_past(uint32_t winter, size_t numbers, uint32_t day)
{
    size_t length = probe_part_length(winter, book, numbers, day);
    size_t hours[] = {length, length + 1, HOURS, LONGEST_BOOK, SIZE_MAX};
    for (size_t i = 0; i < sizeof hours / sizeof *hours; i++) {
        uint32_t reading = probe_part_reading(winter, book, numbers, day, hours[i]);
        if (reading != 0)
            printf(" past=%" PRIu32, reading);
    }
}

static void answer_days(void)
{
    uint32_t query[3];
    for (uint32_t i = 0; i < LONGEST_BOOK; i++)
        book[i] = i; /* so that a reading tells where it stood */
    while (read_numbers(query, 3)) {
        uint32_t w = query[0], a = query[1], b = query[2];
        printf("%" PRIu32 ",%" PRIu32 ",%" PRIu32, w, a, b);
        put_answer("days", probe_days(w));
        put_pair("easter", probe_easter(w));
        put_answer("forward", probe_forward(w));
        put_answer("back", probe_back(w));
        put_answer("weekday", probe_weekday(w, a));
        put_kind(probe_kind(w, a));
        put_pair("date", probe_date(w, a));
        put_answer("book_day", probe_book_day(w, a, b));
        put_part(w, b < LONGEST_BOOK ? b : LONGEST_BOOK, a);
        put_past(w, b < LONGEST_BOOK ? b : LONGEST_BOOK, a);
        putchar('\n');
    }
}

/* The event hours. */

static void put_masks(size_t numbers)
{
    const char *comma = "";
    printf("masks=");
    for (size_t day = 0; day < 2 * DAYS; day++) {
        uint32_t mask = probe_mask(list, numbers, day);
        if (mask != 0) {
            printf("%s%zu:%" PRIu32, comma, day, mask);
            comma = ",";
        }
    }
}

static void answer_lists(void)
{
    uint32_t numbers;
    while (read_numbers(&numbers, 1)) {
        read_rest(list, numbers);
        put_masks(numbers);
        printf(" events=");
        for (size_t i = 0; i + 2 < numbers; i += 3) {
            uint32_t start = probe_event_start(list, numbers, list[i], list[i + 1]);
            uint32_t end = probe_event_end(list, numbers, list[i], list[i + 1]);
            printf("%s%" PRIu32 "+%" PRIu32, i > 0 ? "," : "", start, end - start);
        }
        putchar('\n');
    }
}

/* The energy of an event. */

/* Makes a book, each number from one step more of a state that starts at the seed, and then sets the
 * value of each pair at its place. A spread of 0 is taken as 1. */
static void make_book(const uint32_t *query)
{
    uint64_t state = query[3];
    uint32_t spread = query[5] == 0 ? 1 : query[5];
    for (uint32_t i = 0; i < query[2]; i++) {
        state = (state * 1103515245 + 12345) % 2147483648;
        book[i] = query[4] + (uint32_t)(state / 65536) % spread;
    }
    for (size_t k = 0; k < query[6]; k++)
        if (pairs[2 * k] < query[2])
            book[pairs[2 * k]] = pairs[2 * k + 1];
}

static void answer_events(void)
{
    uint32_t query[10];
    while (read_numbers(query, 10)) {
        uint32_t winter = query[0], day = query[7], start = query[8], end = query[9];
        size_t numbers = query[1], length = query[2];
        if (length > ANY_BOOK)
            give_up("a book is too long");
        read_rest(list, numbers);
        read_rest(pairs, 2 * (size_t)query[6]);
        make_book(query);
        uint64_t fault = probe_event_fault(winter, book, length, list, numbers, day, start, end);
        printf("%" PRIu32, refusal(fault));
        if (refusal(fault) == 0)
            printf(",%" PRIu32 ",%" PRIu32 ",%" PRIu64, (uint32_t)fault >> 16, (uint32_t)fault & 0xFFFF,
                   probe_event_energy(winter, book, length, list, numbers, day, start, end));
        putchar('\n');
    }
}

int main(void)
{
    uint32_t layer = 0;
    read_numbers(&layer, 1);
    switch (layer) {
    case 1: answer_days(); break;
    case 2: answer_lists(); break;
    case 3: answer_events(); break;
    default: give_up("there is no such layer");
    }
    return fflush(stdout) == 0 ? EXIT_SUCCESS : EXIT_FAILURE;
}
