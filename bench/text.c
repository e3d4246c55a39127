/* See text.h. */
#include "text.h"

#include <stdio.h>

#include "winter.h"

#define HOURS_A_DAY 24u
#define HOURS (BOOK_BYTES / 4u)

static uint32_t number_at(const uint8_t *bytes, uint32_t index)
{
    const uint8_t *at = bytes + 4 * index;
    return (uint32_t)at[0] | (uint32_t)at[1] << 8 | (uint32_t)at[2] << 16 | (uint32_t)at[3] << 24;
}

/* The reading of an hour: of six digits for `wide` of all hours, which are spread evenly, and of five for the others. */
static uint32_t reading_at(const struct full_winter *winter, uint32_t hour, uint32_t wide)
{
    uint32_t drawn = number_at(winter->book, hour); /* 2,000 to 9,999 */
    return (hour + 1) * wide / HOURS > hour * wide / HOURS ? 90000 + 5 * drawn : 50000 + 5 * drawn;
}

static char *put_notices(char *at, const struct full_winter *winter)
{
    at += sprintf(at, "winter=%d\nprice=%d\nevents=%d\n", WINTER, PRICE, MOST_NOTICES);
    for (uint32_t i = 0; i < MOST_NOTICES; i++)
        at += sprintf(at, "event=%u,%u,%u\n", number_at(winter->list, 3 * i), number_at(winter->list, 3 * i + 1),
                      number_at(winter->list, 3 * i + 2));
    return at;
}

/* A text with so many readings of six digits, and so many hours a line; gives its length. */
static size_t make_text(uint8_t *text, uint32_t wide, uint32_t hours_a_line)
{
    static struct full_winter winter;
    fill_winter(&winter);
    char *at = put_notices((char *)text, &winter);
    at += sprintf(at, "reads=%u\n", HOURS / hours_a_line);
    for (uint32_t hour = 0; hour < HOURS; hour++) {
        if (hour % hours_a_line == 0)
            at += sprintf(at, "read=%u,%u", hour / HOURS_A_DAY, hour % HOURS_A_DAY);
        at += sprintf(at, ",%u%s", reading_at(&winter, hour, wide), (hour + 1) % hours_a_line == 0 ? "\n" : "");
    }
    return (size_t)(at - (char *)text);
}

/* How many readings of six digits fill the largest text. */
static uint32_t wide_readings(uint8_t *text)
{
    return (uint32_t)(LARGEST_TEXT - make_text(text, 0, 1));
}

size_t largest_text(uint8_t *text)
{
    return make_text(text, wide_readings(text), 1);
}

size_t daily_text(uint8_t *text)
{
    return make_text(text, wide_readings(text), HOURS_A_DAY);
}
