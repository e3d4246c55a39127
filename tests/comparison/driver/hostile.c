/* Calls the library from C in every awkward way: hostile end|start SEED LONGEST RANDOM.
 *
 * All parts are lent at the guard page behind them (end) or before them (start). LONGEST is the
 * length up to which every length of list, book and output is tried with every other, and of the
 * medium-power settlement every length of list and references; RANDOM is how many lists and
 * books are drawn for either settlement. Numbers are drawn from SEED. What a call is held to is
 * said in trial.h. It prints how often each answer was given, and ends with exit status 0; or it
 * says what differed, and ends with 1. */

#define _DEFAULT_SOURCE /* mmap's MAP_ANONYMOUS and MAP_NORESERVE */

#include <stdio.h>
#include <stdlib.h>
#include <string.h>
#include <sys/mman.h>

#include "draw.h"
#include "material.h"
#include "trial.h"

static const uint32_t WINTERS[] = {0, 2009, 2010, 2026, 2027, 2098, 2099, 0x80000000, 0xFFFFFFFF};
static const uint32_t PROFILES[] = {0, 1, 2, 3, 0xFFFFFFFF};
static const uint32_t PRICES[] = {0, 1, 1000000, 1000001, 0xFFFFFFFF};

enum { WINTER = 2026, LEAP_WINTER = 2027, PRICE = 51967 };

/* Bytes more than a right length: a byte or a number less and more, and for a room some more. */
static const int BESIDE[] = {0, -1, 1, -4, 4};
static const int BESIDE_ROOM[] = {0, -1, -8, 1, 40};
static const int BESIDE_TOTALS[] = {0, -1, 1, -8, 8, -TOTALS_BYTES};

/* A length and so many bytes more, but not below 0. */
static size_t beside(size_t length, int more)
{
    return more < 0 && length < (size_t)-more ? 0 : length + (size_t)more;
}

static size_t room_for(size_t list_length)
{
    return list_length / NOTICE_BYTES * LINE_BYTES;
}

/* More than half of the parts touch their guard page, the others lie off it. */
static size_t draw_distance(void)
{
    return draw_once_in(2) ? 0 : draw_below(FARTHEST + 1);
}

static struct lent lent(const uint8_t *bytes, size_t length)
{
    return (struct lent){bytes, length, draw_distance()};
}

/* Lengths of outputs, most of them right. */

static size_t draw_out_length(size_t list_length)
{
    size_t room = room_for(list_length);
    size_t longest = OUT_ROOM - FARTHEST;
    size_t length = draw_once_in(16) ? draw_below((uint32_t)longest)
                                     : beside(room, BESIDE_ROOM[draw_below(COUNT(BESIDE_ROOM))]);
    if (draw_once_in(2) || length > longest)
        length = room < longest ? room : longest;
    return length;
}

static size_t draw_totals_length(void)
{
    int more = draw_once_in(8) ? BESIDE_TOTALS[draw_below(COUNT(BESIDE_TOTALS))] : 0;
    return beside(TOTALS_BYTES, more);
}

static struct trial check_of(uint32_t winter, uint32_t profile, struct lent list)
{
    return (struct trial){.function = CHECK, .winter = winter, .number = profile, .list = list};
}

/* With the winter's sound book and just the room in the output. */
static struct trial settle_of(uint32_t winter, uint32_t price, struct lent list)
{
    return (struct trial){.function = SETTLE,
                          .winter = winter,
                          .number = price,
                          .list = list,
                          .book = lent(book_of(SOUND), book_length(winter)),
                          .out = lent(output_of(NOISE), room_for(list.length))};
}

/* With sound references, the winter's sound book and just the room in both outputs. */
static struct trial power_of(uint32_t winter, struct lent list)
{
    size_t references = list.length / NOTICE_BYTES * NUMBER_BYTES;
    return (struct trial){.function = POWER,
                          .winter = winter,
                          .list = list,
                          .references = lent(references_of(SOUND), references),
                          .book = lent(book_of(SOUND), book_length(winter)),
                          .out = lent(output_of(NOISE), room_for(list.length)),
                          .totals = lent(output_of(NOISE), TOTALS_BYTES)};
}

/* The groups of calls. */

/* Every length of the three up to the longest, the book's own lengths, and those of the room. */
static void try_outputs(struct trial trial, size_t longest)
{
    for (size_t length = 0; length <= longest; length++) {
        trial.out = lent(output_of(draw_below(KINDS)), length);
        try_call(&trial);
    }
    for (size_t i = 0; i < COUNT(BESIDE_ROOM); i++) {
        size_t length = beside(room_for(trial.list.length), BESIDE_ROOM[i]);
        trial.out = lent(output_of(draw_below(KINDS)), length);
        try_call(&trial);
    }
}

static void try_books(struct trial trial, size_t longest)
{
    enum kind kind = draw_below(KINDS);
    for (size_t length = 0; length <= longest; length++) {
        trial.book = lent(book_of(kind), length);
        try_outputs(trial, longest);
    }
    for (size_t i = 0; i < COUNT(BESIDE); i++) {
        trial.book = lent(book_of(kind), beside(book_length(trial.winter), BESIDE[i]));
        try_outputs(trial, longest);
    }
}

/* Every length of the totals that matters with every length of the output that does. */
static void try_totals(struct trial trial)
{
    for (size_t out = 0; out < COUNT(BESIDE_ROOM); out++)
        for (size_t totals = 0; totals < COUNT(BESIDE_TOTALS); totals++) {
            size_t length = beside(room_for(trial.list.length), BESIDE_ROOM[out]);
            trial.out = lent(output_of(draw_below(KINDS)), length);
            length = beside(TOTALS_BYTES, BESIDE_TOTALS[totals]);
            trial.totals = lent(output_of(draw_below(KINDS)), length);
            try_call(&trial);
        }
}

/* Every length of the references up to the longest, with wrong books too. */
static void try_references(struct trial trial, size_t longest)
{
    enum kind kind = draw_once_in(2) ? SOUND : draw_below(KINDS);
    for (size_t length = 0; length <= longest; length++) {
        trial.references = lent(references_of(kind), length);
        try_totals(trial);
    }
    for (size_t i = 0; i < COUNT(BESIDE); i++) {
        trial.book = lent(book_of(SOUND), beside(book_length(trial.winter), BESIDE[i]));
        try_call(&trial);
    }
}

static void try_lengths(size_t longest)
{
    for (size_t length = 0; length <= longest; length++) {
        struct lent list = lent(list_of(draw_once_in(2) ? SOUND : draw_below(KINDS)), length);
        uint32_t winter = length % 2 == 0 ? WINTER : LEAP_WINTER;
        struct trial check = check_of(winter, 1 + draw_below(2), list);
        try_call(&check);
        try_books(settle_of(winter, PRICE, list), longest);
        try_references(power_of(winter, lent(power_list(), length)), longest);
    }
}

/* Long lists, with lengths at both sides of the right ones. */
static void try_long_list(uint32_t winter, size_t list_length)
{
    struct lent list = lent(list_of(SOUND), list_length);
    struct trial check = check_of(winter, 1, list);
    try_call(&check);
    for (size_t book = 0; book < COUNT(BESIDE); book++)
        for (size_t out = 0; out < COUNT(BESIDE_ROOM); out++) {
            struct trial settle = settle_of(winter, PRICE, list);
            settle.book.length = beside(settle.book.length, BESIDE[book]);
            settle.out.length = beside(settle.out.length, BESIDE_ROOM[out]);
            try_call(&settle);
        }
}

/* The same for the medium-power settlement, and lengths at both sides of the references' own. */
static void try_long_power_list(uint32_t winter, size_t list_length)
{
    struct lent list = lent(power_list(), list_length);
    for (size_t book = 0; book < COUNT(BESIDE); book++)
        for (size_t references = 0; references < COUNT(BESIDE); references++) {
            struct trial power = power_of(winter, list);
            power.book.length = beside(power.book.length, BESIDE[book]);
            power.references.length = beside(power.references.length, BESIDE[references]);
            power.out.length = draw_out_length(list_length);
            power.totals.length = draw_totals_length();
            try_call(&power);
        }
}

static void try_long_lists(void)
{
    static const size_t COUNTS[] = {1, 2, 25, 33, 34, 99, 100, 101, 102, 200};
    for (size_t i = 0; i < COUNT(COUNTS); i++)
        for (size_t more = 0; more < COUNT(BESIDE); more++) {
            size_t length = beside(COUNTS[i] * NOTICE_BYTES, BESIDE[more]);
            try_long_list(WINTER, length);
            try_long_list(LEAP_WINTER, length);
            try_long_power_list(more % 2 == 0 ? WINTER : LEAP_WINTER, length);
        }
}

/* Each part at every distance from its guard page, an accepted call and a refused one. */

/* Of the medium-power settlement list, book and output lie at any. */
static void try_power_distances(size_t places)
{
    struct trial power = power_of(WINTER, lent(power_list(), 3 * NOTICE_BYTES));
    power.references.distance = places % 8;
    power.totals.distance = places / 8 % 8;
    try_call(&power);
    power.references.bytes = references_of(NOISE);
    try_call(&power);
}

static void try_distances(void)
{
    for (size_t places = 0; places < 8 * 8 * 8; places++) {
        struct trial settle = settle_of(WINTER, PRICE, lent(list_of(SOUND), 3 * NOTICE_BYTES));
        settle.list.distance = places % 8;
        settle.book.distance = places / 8 % 8;
        settle.out.distance = places / 64;
        try_call(&settle);
        settle.list.bytes = list_of(NOISE);
        try_call(&settle);
        struct trial check = check_of(WINTER, 1 + places / 64 % 2, settle.list);
        try_call(&check);
        try_power_distances(places);
    }
}

/* Awkward winters, profiles and prices over lists and books of every kind. */
static void try_numbers_with(uint32_t winter, enum kind of_list, enum kind of_book)
{
    struct lent list = lent(list_of(of_list), 3 * NOTICE_BYTES);
    for (size_t i = 0; i < COUNT(PROFILES); i++) {
        struct trial check = check_of(winter, PROFILES[i], list);
        try_call(&check);
    }
    for (size_t i = 0; i < COUNT(PRICES); i++) {
        struct trial settle = settle_of(winter, PRICES[i], list);
        settle.book.bytes = book_of(of_book);
        settle.out.bytes = output_of((of_list + of_book + i) % KINDS);
        settle.out.length += LINE_BYTES;
        try_call(&settle);
    }
    for (enum kind of_references = 0; of_references < KINDS; of_references++) {
        struct trial power = power_of(winter, list);
        power.book.bytes = book_of(of_book);
        power.list.bytes = of_list == SOUND ? power_list() : list.bytes;
        power.references.bytes = references_of(of_references);
        power.totals.length += LINE_BYTES;
        try_call(&power);
    }
}

static void try_numbers(void)
{
    for (size_t i = 0; i < COUNT(WINTERS); i++)
        for (enum kind of_list = 0; of_list < KINDS; of_list++)
            for (enum kind of_book = 0; of_book < KINDS; of_book++)
                try_numbers_with(WINTERS[i], of_list, of_book);
}

/* Lengths past 32 bits. Of the list's and the book's the low bits are a right length, and of the
 * output's too few: a library that dropped the high bits would take them so. The memory is there,
 * but none of it is in use before it is touched. */

static void hold_number(enum function function, uint32_t answer, uint32_t right)
{
    count_answer(function, answer);
    if (ibisladder_number(answer) != right)
        say_difference("a length past 32 bits was answered otherwise");
}

static void try_far_length(uint8_t *bytes, size_t far)
{
    const uint8_t *list = list_of(SOUND), *book = book_of(SOUND);
    size_t length = book_length(WINTER);
    uint8_t out[LINE_BYTES];

    hold_number(CHECK, ibisladder_check(WINTER, 1, bytes, far + NOTICE_BYTES),
                IBISLADDER_REFUSED_LIST);
    hold_number(SETTLE, ibisladder_settle(WINTER, bytes, far + length, PRICE, list, NOTICE_BYTES,
                                          out, LINE_BYTES), IBISLADDER_REFUSED_BOOK);
    hold_number(SETTLE, ibisladder_settle(WINTER, book, length, PRICE, bytes, far + NOTICE_BYTES,
                                          out, LINE_BYTES), IBISLADDER_REFUSED_LIST);
    hold_number(SETTLE, ibisladder_settle(WINTER, book, length, PRICE, list, NOTICE_BYTES, bytes,
                                          far), IBISLADDER_ACCEPTED);
    hold_number(SETTLE, ibisladder_settle(WINTER, book, length, PRICE, list, NOTICE_BYTES, out,
                                          LINE_BYTES), IBISLADDER_ACCEPTED);
    if (memcmp(bytes, out, LINE_BYTES) != 0)
        say_difference("an output with a length past 32 bits got another line");
    for (size_t i = LINE_BYTES; i < OUT_ROOM; i++)
        if (bytes[i] != 0)
            say_difference("a byte behind the last line of such an output was changed");
}

/* The medium-power settlement with these parts, where they lie. */
static uint32_t power_with(struct lent book, struct lent list, struct lent references, uint8_t *out,
                           size_t out_length, uint8_t *totals, size_t totals_length)
{
    return ibisladder_power(WINTER, book.bytes, book.length, list.bytes, list.length,
                            references.bytes, references.length, out, out_length, totals,
                            totals_length);
}

static void try_far_power(uint8_t *bytes, size_t far)
{
    struct lent book = {book_of(SOUND), book_length(WINTER), 0};
    struct lent list = {power_list(), NOTICE_BYTES, 0};
    struct lent references = {references_of(SOUND), NUMBER_BYTES, 0};
    struct lent far_book = {bytes, far + book.length, 0}, far_list = {bytes, far + list.length, 0};
    struct lent far_references = {bytes, far + references.length, 0};
    uint8_t out[LINE_BYTES], totals[TOTALS_BYTES];

    hold_number(POWER, power_with(far_book, list, references, out, sizeof out, totals,
                                  sizeof totals), IBISLADDER_REFUSED_BOOK);
    hold_number(POWER, power_with(book, far_list, references, out, sizeof out, totals,
                                  sizeof totals), IBISLADDER_REFUSED_LIST);
    hold_number(POWER, power_with(book, list, far_references, out, sizeof out, totals,
                                  sizeof totals), REFUSED_REFERENCES);
    hold_number(POWER, power_with(book, list, references, bytes, far, totals, sizeof totals),
                IBISLADDER_ACCEPTED);
    hold_number(POWER, power_with(book, list, references, out, sizeof out, bytes + LINE_BYTES,
                                  far), IBISLADDER_ACCEPTED);
    if (memcmp(bytes, out, sizeof out) != 0
        || memcmp(bytes + LINE_BYTES, totals, sizeof totals) != 0)
        say_difference("an output with a length past 32 bits got other numbers");
    for (size_t i = LINE_BYTES + TOTALS_BYTES; i < OUT_ROOM; i++)
        if (bytes[i] != 0)
            say_difference("a byte behind the totals of such a length was changed");
}

/* Up to 35 bits: then the numbers of 64 bits are more than 32 bits count, too. */
static void try_far_lengths_in(void *bytes)
{
    for (unsigned bits = 32; bits <= 35; bits++) {
        memset(bytes, 0, OUT_ROOM);
        try_far_length(bytes, (size_t)1 << bits);
        memset(bytes, 0, OUT_ROOM);
        try_far_power(bytes, (size_t)1 << bits);
    }
}

static void try_far_lengths(void)
{
    size_t length = ((size_t)1 << 35) + BOOK_ROOM;
    int flags = MAP_PRIVATE | MAP_ANONYMOUS | MAP_NORESERVE;
    uint8_t *bytes = mmap(NULL, length, PROT_READ | PROT_WRITE, flags, -1, 0);
    if (bytes == MAP_FAILED)
        give_up("cannot get memory for lengths past 32 bits");
    if (touches_outside(try_far_lengths_in, bytes))
        say_difference("memory outside was touched by a call with a length past 32 bits");
    munmap(bytes, length);
}

/* Drawn calls: most numbers and lengths are right, so that most get as far as the notices. */

static uint32_t draw_winter(void)
{
    return draw_once_in(16) ? draw_of(WINTERS, COUNT(WINTERS)) : 2010 + draw_below(89);
}

static size_t draw_book_length(uint32_t winter)
{
    switch (draw_below(24)) {
    case 0: return beside(book_length(winter), BESIDE[draw_below(COUNT(BESIDE))]);
    case 1: return book_length(winter + draw_below(4));
    case 2: return draw_below(BOOK_ROOM - FARTHEST);
    default: return book_length(winter);
    }
}

/* A list or references may lie in the book, since neither is written to. */
static void put_in_book(struct trial *trial, struct lent *part, uint8_t *book)
{
    size_t first = draw_below((uint32_t)(trial->book.length - part->length + 1));
    memcpy(book + first, part->bytes, part->length);
    part->bytes = book + first;
    trial->list_in_book = part == &trial->list;
    trial->references_in_book = part == &trial->references;
}

static void try_drawn(void)
{
    static uint8_t list[LIST_ROOM], book[BOOK_ROOM];
    uint32_t winter = draw_winter();
    uint32_t profile = draw_once_in(16) ? draw_of(PROFILES, COUNT(PROFILES)) : 1 + draw_below(2);
    uint32_t price = draw_once_in(16) ? draw_of(PRICES, COUNT(PRICES)) : 1 + draw_below(1000000);
    size_t length = draw_list(list);
    draw_book(book);

    struct trial check = check_of(winter, profile, lent(list, length));
    try_call(&check);
    struct trial settle = settle_of(winter, price, lent(list, length));
    settle.book = lent(book, draw_book_length(winter));
    settle.out = lent(output_of(draw_below(KINDS)), draw_out_length(length));
    if (settle.book.length >= length && draw_once_in(8))
        put_in_book(&settle, &settle.list, book);
    try_call(&settle);
}

/* As many bytes as there should be, mostly. */
static size_t draw_references_length(size_t list_length)
{
    size_t right = list_length / NOTICE_BYTES * NUMBER_BYTES;
    return draw_once_in(16) ? beside(right, BESIDE[draw_below(COUNT(BESIDE))]) : right;
}

static void try_drawn_power(void)
{
    static uint8_t list[LIST_ROOM], references[REFERENCES_ROOM], book[BOOK_ROOM];
    uint32_t winter = draw_winter();
    size_t length = draw_power_list(list, winter);
    draw_references(references);
    draw_book(book);

    struct trial power = power_of(winter, lent(list, length));
    power.references = lent(references, draw_references_length(length));
    power.book = lent(book, draw_book_length(winter));
    power.out = lent(output_of(draw_below(KINDS)), draw_out_length(length));
    power.totals = lent(output_of(draw_below(KINDS)), draw_totals_length());
    struct lent *part = draw_once_in(2) ? &power.list : &power.references;
    if (power.book.length >= part->length && draw_once_in(8))
        put_in_book(&power, part, book);
    try_call(&power);
}

static enum side side_named(const char *name)
{
    if (strcmp(name, "end") != 0 && strcmp(name, "start") != 0)
        give_up("parts lie at the end or the start");
    return strcmp(name, "end") == 0 ? AT_END : AT_START;
}

int main(int count, char **words)
{
    if (count != 5)
        give_up("usage: hostile end|start SEED LONGEST RANDOM");
    set_up_trials(side_named(words[1]));
    seed_draws(strtoul(words[2], NULL, 10));
    make_material();
    try_lengths(strtoul(words[3], NULL, 10));
    try_long_lists();
    try_distances();
    try_numbers();
    try_far_lengths();
    for (unsigned long left = strtoul(words[4], NULL, 10); left > 0; left--) {
        try_drawn();
        try_drawn_power();
    }
    print_counts();
    return fflush(stdout) == 0 ? EXIT_SUCCESS : EXIT_FAILURE;
}
