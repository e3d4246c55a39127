/*
 * A plain C peer of two of the library's calls, written from the specification the way C programs are: bytes are read where they lie,
 * Easter and the weekday of day 0 are worked out once a call, and nothing is kept between calls. The speed of the proved
 * library is measured against it. It is no part of what is delivered.
 */
#include "peer.h"

#include <stdbool.h>

enum {
    FIRST_WINTER = 2010,
    LAST_WINTER = 2098,
    MOST_DAYS = 152,
    PERIOD_START = 30,
    HOURS_A_DAY = 24,
    MOST_NOTICES = 100,
    HIGHEST_READING = 10000000,
    HIGHEST_PRICE = 1000000,
    REFERENCE_DAYS = 5,
    MOST_NEEDED_HOURS = 7, /* three warm-up hours and four event hours */
    LIMIT = 720000         /* 40 kWh in eighteenths of a Wh */
};

#define MISSING 4294967295u
#define NUMBER_BYTES 4u
#define NOTICE_BYTES 12u
#define LINE_BYTES 32u

/* What a call needs of the calendar. Easter's days may lie past the book: then no day of it is one of them. */
struct winter {
    uint32_t days;
    uint32_t first_weekday; /* of 1 November, 0 for Sunday */
    uint32_t good_friday;
    uint32_t easter_monday;
};

struct profile {
    uint32_t morning_end;
    bool weekends;
    uint32_t shortest;
    uint32_t longest;
    uint32_t winter_hours;
};

struct notice {
    uint32_t day;
    uint32_t start;
    uint32_t end;
};

struct line {
    uint32_t code;
    uint32_t place;
    uint64_t energy;
};

/* An event's needed hours, the warm-up hours first. */
struct hours {
    uint32_t at[MOST_NEEDED_HOURS];
    uint32_t warm_up;
    uint32_t all;
};

static const struct profile WINTER_CREDIT = {10, true, 1, 4, 100};
static const struct profile POWER_OPTION = {9, false, 3, 4, 100};

static uint32_t number_at(const uint8_t *bytes, size_t index)
{
    const uint8_t *at = bytes + NUMBER_BYTES * index;
    return (uint32_t)at[0] | (uint32_t)at[1] << 8 | (uint32_t)at[2] << 16 | (uint32_t)at[3] << 24;
}

static void put_number(uint8_t *at, uint64_t number)
{
    for (int byte = 0; byte < 8; byte++)
        at[byte] = (uint8_t)(number >> 8 * byte);
}

static struct notice notice_at(const uint8_t *list, size_t index)
{
    struct notice notice = {number_at(list, 3 * index), number_at(list, 3 * index + 1), number_at(list, 3 * index + 2)};
    return notice;
}

static uint32_t refusal(uint32_t number, size_t place)
{
    return number << 16 | (uint32_t)place;
}

/* The calendar. */

/* The day of March of Easter Sunday, on past 31 for April. The letters are those of rule 1.13. */
static uint32_t easter_in_march(uint32_t y)
{
    uint32_t a = y % 19, b = y / 100, c = y % 100, d = b / 4, e = b % 4;
    uint32_t f = (b + 8) / 25, g = (b - f + 1) / 3, h = (19 * a + b - d - g + 15) % 30;
    uint32_t i = c / 4, k = c % 4, l = (32 + 2 * e + 2 * i - h - k) % 7, m = (a + 11 * h + 22 * l) / 451;
    uint32_t t = h + l - 7 * m + 114;
    return (t / 31 - 3) * 31 + t % 31 + 1;
}

static bool is_leap(uint32_t year)
{
    return (year % 4 == 0 && year % 100 != 0) || year % 400 == 0;
}

static struct winter winter_of(uint32_t year)
{
    struct winter winter;
    winter.days = is_leap(year + 1) ? 152 : 151;
    /* The 3 makes 1 November 2026 a Sunday. */
    winter.first_weekday = (year + year / 4 - year / 100 + year / 400 + 3) % 7;
    uint32_t easter = winter.days - 32 + easter_in_march(year + 1);
    winter.good_friday = easter - 2;
    winter.easter_monday = easter + 1;
    return winter;
}

static bool is_winter(uint32_t year)
{
    return FIRST_WINTER <= year && year <= LAST_WINTER;
}

uint32_t peer_days(uint32_t winter)
{
    return is_winter(winter) ? winter_of(winter).days : 0;
}

static bool is_weekend(const struct winter *winter, uint32_t day)
{
    uint32_t weekday = (winter->first_weekday + day) % 7;
    return weekday == 0 || weekday == 6;
}

static bool is_excluded(const struct winter *winter, uint32_t day)
{
    return (53 <= day && day <= 55) || (60 <= day && day <= 62) || day == winter->good_friday ||
           day == winter->easter_monday;
}

/* The list check. */

static bool is_morning(struct notice notice)
{
    return notice.start < 16;
}

static bool in_one_band(const struct profile *profile, struct notice notice)
{
    return notice.start < notice.end && ((6 <= notice.start && notice.end <= profile->morning_end) ||
                                         (16 <= notice.start && notice.end <= 20));
}

/* The first rule that a notice breaks after the one before it and its hours, 0 if none. */
static uint32_t broken_rule(const struct winter *winter, const struct profile *profile, struct notice notice,
                            struct notice before, uint32_t hours_before)
{
    if (notice.day < PERIOD_START || notice.day >= winter->days)
        return 10;
    if (is_excluded(winter, notice.day))
        return 11;
    if (!profile->weekends && is_weekend(winter, notice.day))
        return 12;
    if (!in_one_band(profile, notice))
        return 13;
    uint32_t length = notice.end - notice.start;
    if (length < profile->shortest || length > profile->longest)
        return 14;
    if (notice.day < before.day || (notice.day == before.day && notice.start < before.end))
        return 15;
    if (notice.day == before.day && is_morning(notice) == is_morning(before))
        return 16;
    if (hours_before + length > profile->winter_hours)
        return 18;
    return 0;
}

static uint32_t check_notices(const struct winter *winter, const struct profile *profile, const uint8_t *list, size_t count)
{
    struct notice before = {0, 0, 0}; /* ends before any notice of the winter period starts */
    uint32_t hours = 0;
    for (size_t place = 0; place < count; place++) {
        struct notice notice = notice_at(list, place);
        uint32_t number = broken_rule(winter, profile, notice, before, hours);
        if (number != 0)
            return refusal(number, place);
        hours += notice.end - notice.start;
        before = notice;
    }
    return 0;
}

static bool is_list_length(size_t list_length)
{
    return list_length % NOTICE_BYTES == 0 && list_length / NOTICE_BYTES <= MOST_NOTICES;
}

uint32_t peer_check(uint32_t winter, uint32_t profile, const uint8_t *list, size_t list_length)
{
    if (!is_winter(winter))
        return refusal(1, 0);
    if (profile != 1 && profile != 2)
        return refusal(5, 0);
    if (!is_list_length(list_length))
        return refusal(4, 0);
    struct winter dates = winter_of(winter);
    return check_notices(&dates, profile == 1 ? &WINTER_CREDIT : &POWER_OPTION, list, list_length / NOTICE_BYTES);
}

/* The spared energy. */

static struct hours hours_of(struct notice event)
{
    struct hours hours = {{0}, is_morning(event) ? 3 : 2, 0};
    uint32_t first = event.start - hours.warm_up - 2; /* s-5 in the morning, s-4 in the evening */
    for (uint32_t hour = first; hour < first + hours.warm_up; hour++)
        hours.at[hours.all++] = hour;
    for (uint32_t hour = event.start; hour < event.end; hour++)
        hours.at[hours.all++] = hour;
    return hours;
}

/* Fills in the reference days, the nearest first; false if there are too few. */
static bool find_references(const struct winter *winter, const uint32_t *masks, uint32_t event_day, uint32_t *days)
{
    bool weekend = is_weekend(winter, event_day);
    int found = 0;
    for (uint32_t day = event_day; day-- > 0 && found < REFERENCE_DAYS;)
        if (masks[day] == 0 && is_weekend(winter, day) == weekend && !is_excluded(winter, day))
            days[found++] = day;
    return found == REFERENCE_DAYS;
}

/* Copies a day's needed readings; the code of the first fault, whose place is then set, or 0. */
static uint32_t take_readings(const uint8_t *book, uint32_t day, const struct hours *hours, uint32_t *readings,
                              uint32_t *place)
{
    for (uint32_t i = 0; i < hours->all; i++) {
        uint32_t at = HOURS_A_DAY * day + hours->at[i];
        readings[i] = number_at(book, at);
        if (readings[i] > HIGHEST_READING) {
            *place = at;
            return readings[i] == MISSING ? 21 : 22;
        }
    }
    return 0;
}

/* T of an hour, without one smallest and one largest reading. Row 0 is the event day. */
static int64_t middle_sum(uint32_t readings[][MOST_NEEDED_HOURS], uint32_t hour)
{
    uint32_t sum = 0, smallest = HIGHEST_READING, largest = 0;
    for (int day = 1; day <= REFERENCE_DAYS; day++) {
        uint32_t reading = readings[day][hour];
        sum += reading;
        smallest = reading < smallest ? reading : smallest;
        largest = reading > largest ? reading : largest;
    }
    return (int64_t)sum - smallest - largest;
}

static uint64_t spared_energy(uint32_t readings[][MOST_NEEDED_HOURS], const struct hours *hours)
{
    int64_t r = 0, b = 0, a = 0, c = 0;
    for (uint32_t hour = 0; hour < hours->warm_up; hour++) {
        b += middle_sum(readings, hour);
        a += readings[0][hour];
    }
    for (uint32_t hour = hours->warm_up; hour < hours->all; hour++) {
        r += middle_sum(readings, hour);
        c += readings[0][hour];
    }
    int64_t factor = 6 / hours->warm_up * (hours->all - hours->warm_up); /* 6H/W, whole since W is 2 or 3 */
    int64_t energy = 6 * r + (3 * a - b) * factor - 18 * c;
    if (energy > LIMIT && 3 * a - b > 2 * b)
        energy = 6 * r + 2 * b * factor - 18 * c;
    return energy < 0 ? 0 : (uint64_t)energy;
}

static struct line settle_event(const struct winter *winter, const uint8_t *book, const uint32_t *masks, struct notice event)
{
    struct line line = {0, 0, 0};
    uint32_t days[1 + REFERENCE_DAYS] = {event.day};
    if (!find_references(winter, masks, event.day, days + 1)) {
        line.code = 20;
        return line;
    }
    struct hours hours = hours_of(event);
    uint32_t readings[1 + REFERENCE_DAYS][MOST_NEEDED_HOURS];
    for (int i = 0; i <= REFERENCE_DAYS; i++) {
        line.code = take_readings(book, days[i], &hours, readings[i], &line.place);
        if (line.code != 0)
            return line;
    }
    line.energy = spared_energy(readings, &hours);
    return line;
}

/* The settlement. */

static void mark_events(uint32_t *masks, const uint8_t *list, size_t count)
{
    for (size_t i = 0; i < count; i++) {
        struct notice notice = notice_at(list, i);
        masks[notice.day] |= (1u << notice.end) - (1u << notice.start);
    }
}

/* Cents of an energy, rounded to the nearest, halves up. */
static uint64_t worth(uint64_t energy, uint32_t price)
{
    return (energy * price + 9000000) / 18000000;
}

static void put_line(uint8_t *at, struct line line, uint64_t cents)
{
    put_number(at, line.code);
    put_number(at + 8, line.place);
    put_number(at + 16, line.energy);
    put_number(at + 24, cents);
}

static void settle_notices(const struct winter *winter, const uint8_t *book, uint32_t price, const uint8_t *list,
                           size_t count, uint8_t *out)
{
    uint32_t masks[MOST_DAYS] = {0};
    mark_events(masks, list, count);
    uint64_t energy = 0, cents = 0;
    for (size_t i = 0; i < count; i++) {
        struct line line = settle_event(winter, book, masks, notice_at(list, i));
        energy += line.energy;
        uint64_t cents_with_it = worth(energy, price);
        put_line(out + LINE_BYTES * i, line, cents_with_it - cents);
        cents = cents_with_it;
    }
}

uint32_t peer_settle(uint32_t winter, const uint8_t *book, size_t book_length, uint32_t price, const uint8_t *list,
                     size_t list_length, uint8_t *out, size_t out_length)
{
    if (!is_winter(winter))
        return refusal(1, 0);
    struct winter dates = winter_of(winter);
    if (book_length != NUMBER_BYTES * HOURS_A_DAY * (size_t)dates.days)
        return refusal(2, 0);
    if (price < 1 || price > HIGHEST_PRICE)
        return refusal(3, 0);
    if (!is_list_length(list_length))
        return refusal(4, 0);
    size_t count = list_length / NOTICE_BYTES;
    if (out_length / LINE_BYTES < count)
        return refusal(6, 0);
    uint32_t refused = check_notices(&dates, &WINTER_CREDIT, list, count);
    if (refused == 0)
        settle_notices(&dates, book, price, list, count, out);
    return refused;
}
