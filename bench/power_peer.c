/*
 * A plain C peer of the library's medium-power settlement, written from docs/RULES.md the way C programs are: bytes are read where they
 * lie, the notices are peer.c's to check, and nothing is kept between calls. The speed of the proved library is measured against it. It
 * is no part of what is delivered.
 */
#include "power_peer.h"

#include "peer.h"

enum {
    HOURS_A_DAY = 24,
    MOST_NOTICES = 100,
    TOTAL_NUMBERS = 3,
    HIGHEST_READING = 10000000,
    HIGHEST_REFERENCE = 10000000,
    PARTS_A_W = 12,   /* of a reduction */
    LEAST_POWER = 15, /* kW, which have a rate */
    POWER_OPTION = 2
};

#define MISSING 4294967295u
#define NUMBER_BYTES 4u
#define OUT_NUMBER_BYTES 8u
#define NOTICE_BYTES 12u
#define LINE_BYTES 32u

struct notice {
    uint32_t day;
    uint32_t start;
    uint32_t end;
};

struct line {
    uint32_t code;
    uint32_t place;
    uint32_t energy;
    uint32_t reduction;
};

/* Thousandths of a dollar a kW, up to a power in kW. */
struct rate {
    uint64_t up_to;
    uint64_t thousandths;
};

static const struct rate RATES[] = {{199, 66690}, {599, 61560}, {1199, 56430}, {1799, 51300}, {10000, 46170}};

static uint32_t number_at(const uint8_t *bytes, size_t index)
{
    const uint8_t *at = bytes + NUMBER_BYTES * index;
    return (uint32_t)at[0] | (uint32_t)at[1] << 8 | (uint32_t)at[2] << 16 | (uint32_t)at[3] << 24;
}

static void put_number(uint8_t *at, uint64_t number)
{
    for (int byte = 0; byte < 8; byte++)
        at[byte] = (uint8_t)(number >> 8 * byte);
}

static struct notice notice_at(const uint8_t *list, size_t index)
{
    struct notice notice = {number_at(list, 3 * index), number_at(list, 3 * index + 1), number_at(list, 3 * index + 2)};
    return notice;
}

static uint32_t refusal(uint32_t number, size_t place)
{
    return number << 16 | (uint32_t)place;
}

/* The first reference that is too high, or the count if none is. */
static size_t too_high(const uint8_t *references, size_t count)
{
    size_t place = 0;
    while (place < count && number_at(references, place) <= HIGHEST_REFERENCE)
        place++;
    return place;
}

static struct line settle_event(const uint8_t *book, struct notice event, uint32_t reference)
{
    struct line line = {0, 0, 0, 0};
    uint32_t hours = event.end - event.start, drawn = 0;
    for (uint32_t hour = event.start; hour < event.end; hour++) {
        uint32_t at = HOURS_A_DAY * event.day + hour, reading = number_at(book, at);
        if (reading > HIGHEST_READING) {
            line.code = reading == MISSING ? 21 : 22;
            line.place = at;
            return line;
        }
        drawn += reading;
    }
    line.energy = reference * hours > drawn ? reference * hours - drawn : 0;
    line.reduction = line.energy * (PARTS_A_W / hours); /* whole, since there are 3 or 4 hours */
    return line;
}

/* The credit in cents: the mean of the reductions at its rate, rounded to the nearest, halves up. */
static uint64_t credit(uint64_t reductions, uint64_t settled)
{
    uint64_t kilowatt = 1000 * PARTS_A_W * settled; /* this much of the sum is one kW of the mean */
    if (settled == 0 || reductions < LEAST_POWER * kilowatt)
        return 0;
    const struct rate *rate = RATES;
    while (reductions > rate->up_to * kilowatt)
        rate++;
    uint64_t cent = 10 * kilowatt; /* this much of the worth is one cent */
    return (reductions * rate->thousandths + cent / 2) / cent;
}

static void put_line(uint8_t *at, struct line line)
{
    put_number(at, line.code);
    put_number(at + 8, line.place);
    put_number(at + 16, line.energy);
    put_number(at + 24, line.reduction);
}

static void settle_notices(const uint8_t *book, const uint8_t *list, const uint8_t *references, size_t count, uint8_t *out,
                           uint8_t *totals)
{
    uint64_t reductions = 0, settled = 0;
    for (size_t i = 0; i < count; i++) {
        struct line line = settle_event(book, notice_at(list, i), number_at(references, i));
        reductions += line.reduction;
        settled += line.code == 0;
        put_line(out + LINE_BYTES * i, line);
    }
    put_number(totals, reductions);
    put_number(totals + 8, settled);
    put_number(totals + 16, credit(reductions, settled));
}

uint32_t peer_power(uint32_t winter, const uint8_t *book, size_t book_length, const uint8_t *list, size_t list_length,
                    const uint8_t *references, size_t references_length, uint8_t *out, size_t out_length, uint8_t *totals,
                    size_t totals_length)
{
    size_t days = peer_days(winter), count = list_length / NOTICE_BYTES;
    if (days == 0)
        return refusal(1, 0);
    if (book_length != NUMBER_BYTES * HOURS_A_DAY * days)
        return refusal(2, 0);
    if (list_length % NOTICE_BYTES != 0 || count > MOST_NOTICES)
        return refusal(4, 0);
    if (out_length / LINE_BYTES < count || totals_length / OUT_NUMBER_BYTES < TOTAL_NUMBERS)
        return refusal(6, 0);
    if (references_length != NUMBER_BYTES * count)
        return refusal(40, 0);
    size_t place = too_high(references, count);
    if (place < count)
        return refusal(41, place);
    uint32_t refused = peer_check(winter, POWER_OPTION, list, list_length);
    if (refused == 0)
        settle_notices(book, list, references, count, out, totals);
    return refused;
}
