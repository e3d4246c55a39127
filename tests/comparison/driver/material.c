/* See material.h. */

#include "material.h"

#include <stdbool.h>
#include <string.h>

#include "draw.h"

enum { FIRST_DAY = 30, FIRST_MORNING = 6, FIRST_EVENING = 16, BAND_HOURS = 4 };

/* Day 63 is 3 January, and from there no day is excluded before the 139th at the earliest. */
enum { FIRST_OPEN_DAY = 63 };

/* The highest reading of most books, in Wh. */
enum { USUAL_READING = 9999 };

/* The hours of the shortest event under profile 2, which fill its morning band. */
enum { SHORTEST_POWER = 3 };

struct notice {
    uint32_t day, start, end;
};

static uint8_t lists[KINDS][LIST_ROOM], books[KINDS][BOOK_ROOM], outputs[KINDS][OUT_ROOM];
static uint8_t references[KINDS][REFERENCES_ROOM], power_notices[LIST_ROOM];

static void put_number(uint8_t *bytes, size_t index, uint32_t number)
{
    for (size_t i = 0; i < NUMBER_BYTES; i++)
        bytes[NUMBER_BYTES * index + i] = (uint8_t)(number >> 8 * i);
}

static void put_notice(uint8_t *list, size_t index, struct notice notice)
{
    put_number(list, 3 * index, notice.day);
    put_number(list, 3 * index + 1, notice.start);
    put_number(list, 3 * index + 2, notice.end);
}

static void draw_bytes(uint8_t *bytes, size_t length)
{
    uint64_t drawn = 0;
    for (size_t i = 0; i < length; i++, drawn >>= 8) {
        if (i % 8 == 0)
            drawn = draw();
        bytes[i] = (uint8_t)drawn;
    }
}

static void draw_readings(uint8_t *book, uint32_t highest)
{
    for (size_t i = 0; i < LONGEST_BOOK / NUMBER_BYTES; i++)
        put_number(book, i, draw_below(highest + 1));
}

/* Sound bytes are put over the noise. */
static void make_bytes(uint8_t *bytes, size_t length, enum kind kind)
{
    if (kind == ZEROS || kind == ONES)
        memset(bytes, kind == ONES ? 0xFF : 0, length);
    else
        draw_bytes(bytes, length);
}

/* One hour each, in the morning and the evening of every day. */
static void put_sound_list(uint8_t *list)
{
    for (uint32_t i = 0; i < LIST_ROOM / NOTICE_BYTES; i++) {
        uint32_t start = i % 2 == 0 ? FIRST_MORNING : FIRST_EVENING;
        put_notice(list, i, (struct notice){FIRST_OPEN_DAY + i / 2, start, start + 1});
    }
}

/* Three hours each, in the morning and the evening of four days a week: winter 2026 begins with
 * a Sunday and winter 2027 with a Monday. */
static void put_power_list(uint8_t *list)
{
    for (uint32_t i = 0; i < LIST_ROOM / NOTICE_BYTES; i++) {
        uint32_t start = i % 2 == 0 ? FIRST_MORNING : FIRST_EVENING;
        uint32_t day = FIRST_OPEN_DAY + 1 + i / 8 * 7 + i / 2 % 4;
        put_notice(list, i, (struct notice){day, start, start + SHORTEST_POWER});
    }
}

static void put_sound_references(uint8_t *bytes)
{
    for (size_t i = 0; i < REFERENCES_ROOM / NUMBER_BYTES; i++)
        put_number(bytes, i, draw_below(draw_once_in(4) ? HIGHEST_REFERENCE + 1 : 30000));
}

void make_material(void)
{
    for (enum kind kind = 0; kind < KINDS; kind++) {
        make_bytes(lists[kind], LIST_ROOM, kind);
        make_bytes(references[kind], REFERENCES_ROOM, kind);
        make_bytes(books[kind], BOOK_ROOM, kind);
        make_bytes(outputs[kind], OUT_ROOM, kind);
    }
    put_sound_list(lists[SOUND]);
    put_power_list(power_notices);
    put_sound_references(references[SOUND]);
    draw_readings(books[SOUND], USUAL_READING);
}

const uint8_t *list_of(enum kind kind)
{
    return lists[kind];
}

const uint8_t *references_of(enum kind kind)
{
    return references[kind];
}

const uint8_t *power_list(void)
{
    return power_notices;
}

const uint8_t *book_of(enum kind kind)
{
    return books[kind];
}

const uint8_t *output_of(enum kind kind)
{
    return outputs[kind];
}

/* Drawn lists. */

/* On the evening of the same day, or on one of the next days, but past the turn of the year. */
static struct notice draw_after(struct notice before, uint32_t longest, uint32_t farthest)
{
    bool same_day = before.start < FIRST_EVENING && draw_once_in(2);
    uint32_t day = before.day + (same_day ? 0 : 1 + draw_below(farthest));
    if (53 <= day && day < FIRST_OPEN_DAY)
        day = FIRST_OPEN_DAY;
    uint32_t skipped = draw_below(BAND_HOURS);
    uint32_t room = BAND_HOURS - skipped;
    uint32_t start = (same_day || draw_once_in(2) ? FIRST_EVENING : FIRST_MORNING) + skipped;
    return (struct notice){day, start, start + 1 + draw_below(longest < room ? longest : room)};
}

/* Days and hours at both sides of a bound, and those that no calendar has. */
static uint32_t draw_awkward(void)
{
    static const uint32_t AWKWARD[] = {
        0, 1, 5, 6, 7, 9, 10, 11, 15, 16, 20, 21, 24, 29, 30, 53, 62, 145, 148, 149, 150, 151, 152,
        256, 65535, 65536, 0x7FFFFFFF, 0x80000000, 0xFFFFFFFE, 0xFFFFFFFF};
    return draw_of(AWKWARD, COUNT(AWKWARD));
}

/* One number wrong, or the notice on the day of the one before: the same again, or behind it. */
static struct notice spoiled(struct notice notice, struct notice before)
{
    switch (draw_below(6)) {
    case 0: notice.day = draw_awkward(); break;
    case 1: notice.start = draw_awkward(); break;
    case 2: notice.end = draw_awkward(); break;
    case 3: notice.day = 53 + draw_below(10); break;
    case 4: return before;
    default: return (struct notice){before.day, before.end, before.end + 1};
    }
    return notice;
}

/* Notices in the order of time; one may be spoiled. */
static size_t draw_notices(uint8_t *list)
{
    bool few = draw_once_in(2);
    uint32_t count = few ? draw_below(7) : draw_below(MOST_NOTICES + 3);
    uint32_t longest = 1 + draw_below(BAND_HOURS);
    uint32_t wrong = draw_once_in(2) && count > 0 ? draw_below(count) : count;
    uint32_t day_before = FIRST_DAY - 1 + (few ? draw_below(80) : 0);
    struct notice before = {day_before, FIRST_EVENING, FIRST_EVENING};
    for (uint32_t i = 0; i < count; i++) {
        struct notice notice = draw_after(before, longest, few ? 8 : 1);
        if (i == wrong)
            notice = spoiled(notice, before);
        put_notice(list, i, notice);
        before = notice;
    }
    return count * NOTICE_BYTES;
}

/* Numbers that are days and hours at best by chance. */
static size_t draw_numbers(uint8_t *list)
{
    uint32_t count = draw_below(8);
    for (uint32_t i = 0; i < count; i++)
        put_notice(list, i, (struct notice){25 + draw_below(130), draw_below(26), draw_below(26)});
    if (count > 0)
        put_number(list, draw_below(3 * count), draw_awkward());
    return count * NOTICE_BYTES;
}

static size_t draw_any(uint8_t *list)
{
    size_t length = draw_below(draw_once_in(4) ? LIST_ROOM - FARTHEST : 1300);
    draw_bytes(list, length);
    return length;
}

/* One in sixteen has some bytes too many. */
static size_t draw_bytes_over(uint8_t *list, size_t length)
{
    if (draw_once_in(16) && length + NOTICE_BYTES + FARTHEST < LIST_ROOM) {
        size_t more = 1 + draw_below(NOTICE_BYTES);
        draw_bytes(list + length, more);
        length += more;
    }
    return length;
}

size_t draw_list(uint8_t *list)
{
    size_t (*const WAYS[])(uint8_t *) = {draw_any, draw_numbers, draw_notices, draw_notices,
                                         draw_notices, draw_notices, draw_notices, draw_notices};
    return draw_bytes_over(list, WAYS[draw_below(COUNT(WAYS))](list));
}

/* Drawn lists under profile 2. */

static bool is_weekend(uint32_t winter, uint32_t day)
{
    uint32_t first = (winter + winter / 4 - winter / 100 + winter / 400 + 3) % 7;
    uint32_t weekday = (first + day) % 7;
    return weekday == 0 || weekday == 6;
}

/* On the evening of the same day, or on one of the next days that are open. */
static struct notice draw_power_after(struct notice before, uint32_t winter, uint32_t farthest)
{
    bool same_day = before.start < FIRST_EVENING && draw_once_in(2);
    bool evening = same_day || draw_once_in(2);
    uint32_t day = before.day + (same_day ? 0 : 1 + draw_below(farthest));
    while (!same_day && (is_weekend(winter, day) || (53 <= day && day < FIRST_OPEN_DAY)))
        day++;
    uint32_t hours = SHORTEST_POWER + (evening && draw_once_in(2) ? 1 : 0);
    uint32_t start = evening ? FIRST_EVENING + draw_below(BAND_HOURS - hours + 1) : FIRST_MORNING;
    return (struct notice){day, start, start + hours};
}

/* Notices in the order of time, some of them more than a winter has hours for; one may be
 * spoiled. */
static size_t draw_power_notices(uint8_t *list, uint32_t winter)
{
    bool few = draw_once_in(2);
    uint32_t count = few ? draw_below(7) : draw_below(38);
    uint32_t wrong = draw_once_in(3) && count > 0 ? draw_below(count) : count;
    uint32_t day_before = FIRST_DAY - 1 + (few ? draw_below(80) : 0);
    struct notice before = {day_before, FIRST_EVENING, FIRST_EVENING};
    for (uint32_t i = 0; i < count; i++) {
        struct notice notice = draw_power_after(before, winter, few ? 8 : 1);
        if (i == wrong)
            notice = spoiled(notice, before);
        put_notice(list, i, notice);
        before = notice;
    }
    return count * NOTICE_BYTES;
}

size_t draw_power_list(uint8_t *list, uint32_t winter)
{
    if (draw_once_in(8))
        return draw_list(list);
    return draw_bytes_over(list, draw_power_notices(list, winter));
}

/* Drawn references. */

void draw_references(uint8_t *bytes)
{
    static const uint32_t EDGES[] = {0, HIGHEST_REFERENCE, HIGHEST_REFERENCE + 1, 0x80000000,
                                     0xFFFFFFFF};
    memcpy(bytes, references[draw_once_in(16) ? draw_below(KINDS) : SOUND], REFERENCES_ROOM);
    if (draw_once_in(4))
        put_number(bytes, draw_below(40), draw_of(EDGES, COUNT(EDGES)));
}

/* Drawn books. */

static void put_faults(uint8_t *book)
{
    static const uint32_t FAULTS[] = {
        IBISLADDER_MISSING, IBISLADDER_MISSING, IBISLADDER_MISSING - 1, 0x80000000,
        IBISLADDER_HIGHEST_READING + 1, IBISLADDER_HIGHEST_READING};
    for (uint32_t faults = draw_below(400); faults > 0; faults--)
        put_number(book, draw_below(LONGEST_BOOK / NUMBER_BYTES), draw_of(FAULTS, COUNT(FAULTS)));
}

void draw_book(uint8_t *book)
{
    uint32_t chosen = draw_below(16);
    if (chosen <= NOISE) {
        memcpy(book, books[chosen], BOOK_ROOM);
        return;
    }
    if (chosen == NOISE + 1) {
        draw_bytes(book, BOOK_ROOM);
        return;
    }
    draw_readings(book, draw_once_in(4) ? IBISLADDER_HIGHEST_READING : USUAL_READING);
    if (chosen % 2 == 0)
        put_faults(book);
}
