/* See winter.h. */
#include "winter.h"

static void put_number(uint8_t *bytes, uint32_t index, uint32_t number)
{
    for (uint32_t byte = 0; byte < 4; byte++)
        bytes[4 * index + byte] = (uint8_t)(number >> 8 * byte);
}

/* 24 to 26 and 31 December, 1 and 2 January, and Good Friday and Easter Monday of 2027. */
static int is_excluded(uint32_t day)
{
    return (53 <= day && day <= 55) || (60 <= day && day <= 62) || day == 145 || day == 148;
}

/* One hour a day, in the morning and the evening by turns: the reference days then lie ever further back. */
static void fill_list(uint8_t *list)
{
    uint32_t day = 30;
    for (uint32_t i = 0; i < MOST_NOTICES; i++, day++) {
        while (is_excluded(day))
            day++;
        uint32_t start = (i % 2 == 0 ? 6 : 16) + i % 4;
        put_number(list, 3 * i, day);
        put_number(list, 3 * i + 1, start);
        put_number(list, 3 * i + 2, start + 1);
    }
}

/* Readings of 2,000 to 9,999 Wh from a plain generator: no order for a processor to learn, and the same on every run. */
static void fill_book(uint8_t *book)
{
    uint32_t state = 1;
    for (uint32_t i = 0; i < BOOK_BYTES / 4; i++) {
        state = state * 1664525u + 1013904223u;
        put_number(book, i, 2000 + (state >> 16) % 8000);
    }
}

void fill_winter(struct full_winter *winter)
{
    fill_list(winter->list);
    fill_book(winter->book);
}

/* 1 November 2026, day 0, is a Sunday. */
static int is_weekend(uint32_t day)
{
    return day % 7 == 0 || day % 7 == 6;
}

/* One event a day, in the evening, those of three hours in the morning by turns. Of every fourth the reference is below any reading. */
void fill_site(struct site *site, uint32_t hours)
{
    uint32_t day = 30, state = 1;
    for (uint32_t i = 0; i < THREE_HOUR_NOTICES; i++, day++) {
        while (is_excluded(day) || is_weekend(day))
            day++;
        uint32_t start = hours == 3 && i % 2 == 0 ? 6 : 16;
        put_number(site->list, 3 * i, day);
        put_number(site->list, 3 * i + 1, start);
        put_number(site->list, 3 * i + 2, start + hours);
        state = state * 1664525u + 1013904223u;
        put_number(site->references, i, i % 4 == 3 ? 1000 : 50000 + (state >> 8) % 500000);
    }
}
