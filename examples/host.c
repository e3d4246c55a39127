/*
 * A small host of Ibisladder: it fills books, has lists checked and settled, prints the lines with totals that it adds up itself,
 * settles medium-power sites, whose totals it is told, and says every refusal in words. Winters, readings and answers are the sample and
 * figures of docs/RULES.md, or follow from it by hand. It ends with failure where an answer is another one.
 *
 *     cc -std=c99 $(pkg-config --cflags ibisladder) host.c $(pkg-config --libs ibisladder)
 */
#include <inttypes.h>
#include <stdbool.h>
#include <stdio.h>
#include <stdlib.h>
#include <string.h>

#include <ibisladder.h>

#define WINTER 2026u /* 2027 is no leap year, so its book has 151 days */
#define BOOK_BYTES (IBISLADDER_DAYS * IBISLADDER_HOURS * IBISLADDER_NUMBER_BYTES)
#define NOTICE_BYTES (IBISLADDER_NOTICE_NUMBERS * IBISLADDER_NUMBER_BYTES)
#define LINE_BYTES (IBISLADDER_LINE_NUMBERS * IBISLADDER_OUT_NUMBER_BYTES)
#define POWER_LINE_BYTES (IBISLADDER_POWER_LINE_NUMBERS * IBISLADDER_OUT_NUMBER_BYTES)
#define TOTALS_BYTES (IBISLADDER_TOTAL_NUMBERS * IBISLADDER_OUT_NUMBER_BYTES)
#define MOST_EVENTS 4

struct notice {
    uint32_t day, start, end;
};

/* The last number is the cents, or at a medium-power site the reduction. */
struct line {
    uint64_t code, place, energy, last;
};

struct totals {
    uint64_t reductions, settled, cents;
};

/* A winter's notices at a price, and the lines that the rules give them. */
struct account {
    uint32_t price;
    size_t events;
    struct notice notices[MOST_EVENTS];
    struct line right[MOST_EVENTS];
};

/* The notices of a medium-power site, each with its reference, and the lines and totals that the rules give them. */
struct site {
    size_t events;
    struct notice notices[MOST_EVENTS];
    uint32_t references[MOST_EVENTS];
    struct line right[MOST_EVENTS];
    struct totals totals;
};

/* Numbers as bytes. Shifts give little-endian bytes on any machine. */

static void put_number(uint8_t *bytes, size_t index, uint32_t number)
{
    for (size_t byte = 0; byte < IBISLADDER_NUMBER_BYTES; byte++)
        bytes[IBISLADDER_NUMBER_BYTES * index + byte] = (uint8_t)(number >> 8 * byte);
}

static uint64_t out_number(const uint8_t *out, size_t index)
{
    uint64_t number = 0;
    for (size_t byte = IBISLADDER_OUT_NUMBER_BYTES; byte-- > 0;)
        number = number << 8 | out[IBISLADDER_OUT_NUMBER_BYTES * index + byte];
    return number;
}

static void put_notice(uint8_t *list, size_t index, struct notice notice)
{
    put_number(list, IBISLADDER_NOTICE_NUMBERS * index, notice.day);
    put_number(list, IBISLADDER_NOTICE_NUMBERS * index + 1, notice.start);
    put_number(list, IBISLADDER_NOTICE_NUMBERS * index + 2, notice.end);
}

/* The line at the front of an output. */
static struct line line_at(const uint8_t *out)
{
    struct line line = {out_number(out, 0), out_number(out, 1), out_number(out, 2), out_number(out, 3)};
    return line;
}

static struct totals totals_at(const uint8_t *bytes)
{
    struct totals totals = {out_number(bytes, 0), out_number(bytes, 1), out_number(bytes, 2)};
    return totals;
}

/* The same reading at hours start to end-1 of a day. */
static void put_readings(uint8_t *book, uint32_t day, uint32_t start, uint32_t end, uint32_t reading)
{
    for (uint32_t hour = start; hour < end; hour++)
        put_number(book, IBISLADDER_HOURS * day + hour, reading);
}

static void put_every_day(uint8_t *book, uint32_t start, uint32_t end, uint32_t reading)
{
    for (uint32_t day = 0; day < IBISLADDER_DAYS; day++)
        put_readings(book, day, start, end, reading);
}

/* Settlements. */

static void print_line(struct notice notice, struct line line)
{
    printf("line=%" PRIu32 ",%" PRIu32 ",%" PRIu32 ",%" PRIu64 ",%" PRIu64 ",%" PRIu64 ",%" PRIu64 "  %s", notice.day,
           notice.start, notice.end, line.code, line.place, line.energy, line.last, ibisladder_event_text(line.code));
    /* The place of the other codes is no hour of the book. */
    if (line.code == IBISLADDER_EVENT_MISSING || line.code == IBISLADDER_EVENT_TOO_LARGE)
        printf(": day %" PRIu64 ", hour %" PRIu64, line.place / IBISLADDER_HOURS, line.place % IBISLADDER_HOURS);
    printf("\n");
}

static bool same_line(struct line one, struct line other)
{
    return one.code == other.code && one.place == other.place && one.energy == other.energy && one.last == other.last;
}

/* Prints the lines and the totals; whether each line is the right one. */
static bool print_account(const struct account *account, const uint8_t *out)
{
    bool right = true;
    uint64_t energy = 0, cents = 0;
    printf("winter=%u\nprice=%" PRIu32 "\nevents=%zu\n", WINTER, account->price, account->events);
    for (size_t i = 0; i < account->events; i++) {
        struct line line = line_at(out + LINE_BYTES * i);
        print_line(account->notices[i], line);
        right = right && same_line(line, account->right[i]);
        energy += line.energy;
        cents += line.last;
    }
    printf("energy=%" PRIu64 "\ntotal=%" PRIu64 "\n", energy, cents);
    return right;
}

/* Says that a call was refused, which none of the settlements here is to be. */
static bool print_refused(uint32_t answer)
{
    printf("refused=%" PRIu32 ",%" PRIu32 "\n", ibisladder_number(answer), ibisladder_place(answer));
    return false;
}

static bool settle(const uint8_t *book, const struct account *account)
{
    uint8_t list[MOST_EVENTS * NOTICE_BYTES], out[MOST_EVENTS * LINE_BYTES];
    for (size_t i = 0; i < account->events; i++)
        put_notice(list, i, account->notices[i]);
    uint32_t answer = ibisladder_settle(WINTER, book, BOOK_BYTES, account->price, list, account->events * NOTICE_BYTES, out,
                                        sizeof out);
    return answer == 0 ? print_account(account, out) : print_refused(answer);
}

/* The sample, and two events more: one without readings, one with a reading that no meter gives. */
static bool settle_sample(uint8_t *book)
{
    static const uint32_t days[] = {31, 32, 33, 36, 37};
    static const struct account account = {
        51967, 3, {{38, 6, 9}, {39, 16, 17}, {40, 6, 7}}, {{0, 0, 81000, 234}, {21, 948, 0, 0}, {22, 961, 0, 0}}};
    put_every_day(book, 0, IBISLADDER_HOURS, IBISLADDER_MISSING);
    for (uint32_t i = 0; i < 5; i++) {
        put_readings(book, days[i], 1, 4, 2000 + 100 * i);
        put_readings(book, days[i], 6, 9, 2000 + 100 * i);
    }
    put_readings(book, 38, 1, 4, 2500);
    put_readings(book, 38, 6, 9, 1000);
    put_readings(book, 40, 1, 2, IBISLADDER_HIGHEST_READING + 1);
    return settle(book, &account);
}

/* R = 126,000, B = 9,000, A = 12,000: C = 11,000 gives 720,000, and on the next day C = 10,999, just past the limit, less. */
static bool settle_at_limit(uint8_t *book)
{
    static const struct account account = {
        50000, 2, {{38, 6, 9}, {39, 6, 9}}, {{0, 0, 720000, 2000}, {0, 0, 666018, 1850}}};
    put_every_day(book, 1, 4, 1000);
    put_every_day(book, 6, 9, 14000);
    for (uint32_t day = 38; day <= 39; day++) {
        put_readings(book, day, 1, 4, 4000);
        put_readings(book, day, 6, 8, 4000);
    }
    put_readings(book, 38, 8, 9, 3000);
    put_readings(book, 39, 8, 9, 2999);
    return settle(book, &account);
}

/* Three lines of 180, half a cent each: the cents add up to the rounded worth of all three. */
static bool settle_halves(uint8_t *book)
{
    static const struct account account = {
        50000, 3, {{38, 6, 7}, {39, 6, 7}, {40, 6, 7}}, {{0, 0, 180, 1}, {0, 0, 180, 0}, {0, 0, 180, 1}}};
    put_every_day(book, 0, IBISLADDER_HOURS, 1000);
    for (uint32_t day = 38; day <= 40; day++)
        put_readings(book, day, 6, 7, 990);
    return settle(book, &account);
}

/* Medium-power sites. */

static bool same_totals(struct totals one, struct totals other)
{
    return one.reductions == other.reductions && one.settled == other.settled && one.cents == other.cents;
}

/* Prints the totals, and for a person the effective power, cut down to whole W: the credit went by the exact fraction. */
static void print_totals(struct totals totals)
{
    uint64_t watts = totals.settled == 0 ? 0 : totals.reductions / (IBISLADDER_REDUCTION_PARTS * totals.settled);
    printf("reductions=%" PRIu64 "\nsettled=%" PRIu64 "\ncredit=%" PRIu64, totals.reductions, totals.settled, totals.cents);
    printf("  %" PRIu64 ".%03" PRIu64 " kW, ", watts / 1000, watts % 1000);
    printf("%" PRIu64 ".%02" PRIu64 " dollars\n", totals.cents / 100, totals.cents % 100);
}

/* Prints the lines and the totals; whether each is the right one. */
static bool print_site(const struct site *site, const uint8_t *out, struct totals totals)
{
    bool right = same_totals(totals, site->totals);
    printf("winter=%u\nevents=%zu\n", WINTER, site->events);
    for (size_t i = 0; i < site->events; i++) {
        struct line line = line_at(out + POWER_LINE_BYTES * i);
        printf("reference=%" PRIu32 "  ", site->references[i]);
        print_line(site->notices[i], line);
        right = right && same_line(line, site->right[i]);
    }
    print_totals(totals);
    return right;
}

static bool settle_site(const uint8_t *book, const struct site *site)
{
    uint8_t list[MOST_EVENTS * NOTICE_BYTES], references[MOST_EVENTS * IBISLADDER_NUMBER_BYTES];
    uint8_t out[MOST_EVENTS * POWER_LINE_BYTES], totals[TOTALS_BYTES];
    for (size_t i = 0; i < site->events; i++) {
        put_notice(list, i, site->notices[i]);
        put_number(references, i, site->references[i]);
    }
    uint32_t answer = ibisladder_power(WINTER, book, BOOK_BYTES, list, site->events * NOTICE_BYTES, references,
                                       site->events * IBISLADDER_NUMBER_BYTES, out, sizeof out, totals, sizeof totals);
    return answer == 0 ? print_site(site, out, totals_at(totals)) : print_refused(answer);
}

/*
 * Four events of a site that is expected to draw 120 kW. With the hours H, the reference times H less what was drawn is the energy in
 * Wh, and that times 12/H the reduction in twelfths of a W:
 *
 *     day 38, H = 3: 360,000 -  59,500 = 300,500, times 4 = 1,202,000
 *     day 39, H = 4: 480,000 - 120,000 = 360,000, times 3 = 1,080,000
 *     day 40, H = 3: 360,000 - 375,000 is negative: 0, and the event counts all the same
 *     day 43: the reading of hour 17 is missing, at 24 * 43 + 17 = 1,049: the event does not count
 *
 * The sum is 2,282,000, of three events: some 63.4 kW, at 66.69 dollars a kW. 2,282,000 * 66,690 / (120,000 * 3) = 422,740.5 cents, and
 * a half goes up.
 */
static bool settle_medium_power(uint8_t *book)
{
    static const struct site site = {4,
                                     {{38, 6, 9}, {39, 16, 20}, {40, 6, 9}, {43, 16, 19}},
                                     {120000, 120000, 120000, 120000},
                                     {{0, 0, 300500, 1202000}, {0, 0, 360000, 1080000}, {0, 0, 0, 0}, {21, 1049, 0, 0}},
                                     {2282000, 3, 422741}};
    put_every_day(book, 0, IBISLADDER_HOURS, IBISLADDER_MISSING);
    put_readings(book, 38, 6, 8, 20000);
    put_readings(book, 38, 8, 9, 19500);
    put_readings(book, 39, 16, 20, 30000);
    put_readings(book, 40, 6, 9, 125000);
    put_readings(book, 43, 16, 17, 30000);
    put_readings(book, 43, 18, 19, 30000);
    return settle_site(book, &site);
}

/*
 * A bound of the rates. Of 200 kW that were expected, the first site drew 1 kW and spared 199, so 2,388,000 twelfths of a W:
 * 2,388,000 * 66,690 / 120,000 = 1,327,131 cents. The second drew nothing and spared 200, so 2,400,000: above 199 kW all of them have
 * the next rate, and 2,400,000 * 61,560 / 120,000 = 1,231,200 cents are fewer.
 */
static bool settle_at_bound(uint8_t *book)
{
    static const struct site below = {
        1, {{38, 6, 9}}, {200000}, {{0, 0, 597000, 2388000}}, {2388000, 1, 1327131}};
    static const struct site above = {
        1, {{38, 6, 9}}, {200000}, {{0, 0, 600000, 2400000}}, {2400000, 1, 1231200}};
    put_readings(book, 38, 6, 9, 1000);
    bool right = settle_site(book, &below);
    put_readings(book, 38, 6, 9, 0);
    return settle_site(book, &above) && right;
}

/* Refusals. */

/* Prints an answer in words; whether it is the right one. */
static bool print_answer(const char *tried, uint32_t answer, uint32_t number, uint32_t place)
{
    uint32_t got = ibisladder_number(answer);
    printf("%s: %" PRIu32 ",%" PRIu32 "  %s\n", tried, got, ibisladder_place(answer), ibisladder_refusal_text(got));
    return got == number && ibisladder_place(answer) == place;
}

struct trial {
    const char *tried;
    uint32_t winter, profile;
    size_t count;
    struct notice notices[2];
    uint32_t number, place;
};

/* Day 38 of winter 2026 is a Wednesday, 34 a Saturday, 54 Christmas Day and 29 the last of November. */
static const struct trial TRIALS[] = {
    {"both peaks of a day", 2026, 1, 2, {{38, 6, 10}, {38, 16, 20}}, 0, 0},
    {"no notice", 2026, 1, 0, {{0, 0, 0}}, 0, 0},
    {"winter 2009", 2009, 1, 1, {{38, 6, 9}}, IBISLADDER_REFUSED_WINTER, 0},
    {"profile 3", 2026, 3, 1, {{38, 6, 9}}, IBISLADDER_REFUSED_PROFILE, 0},
    {"the last of November", 2026, 1, 1, {{29, 6, 9}}, IBISLADDER_REFUSED_DAY, 0},
    {"Christmas Day", 2026, 1, 1, {{54, 6, 9}}, IBISLADDER_REFUSED_EXCLUDED, 0},
    {"a Saturday under profile 2", 2026, 2, 1, {{34, 6, 9}}, IBISLADDER_REFUSED_WEEKEND, 0},
    {"9 to 6, swapped", 2026, 1, 1, {{38, 9, 6}}, IBISLADDER_REFUSED_HOURS, 0},
    {"10 to 12, between the bands", 2026, 1, 1, {{38, 10, 12}}, IBISLADDER_REFUSED_NO_BAND, 0},
    {"9 to 10 under profile 2", 2026, 2, 1, {{38, 9, 10}}, IBISLADDER_REFUSED_NO_BAND, 0},
    {"6 to 11", 2026, 1, 1, {{38, 6, 11}}, IBISLADDER_REFUSED_ACROSS, 0},
    {"two hours under profile 2", 2026, 2, 1, {{38, 6, 8}}, IBISLADDER_REFUSED_LENGTH, 0},
    {"a contact that bounced: the same notice twice", 2026, 1, 2, {{38, 6, 9}, {38, 6, 9}}, IBISLADDER_REFUSED_ORDER, 1},
    {"6 to 7, then 8 to 9", 2026, 1, 2, {{38, 6, 7}, {38, 8, 9}}, IBISLADDER_REFUSED_BAND, 1},
};

static bool try_lists(void)
{
    bool right = true;
    for (size_t i = 0; i < sizeof TRIALS / sizeof TRIALS[0]; i++) {
        const struct trial *trial = &TRIALS[i];
        uint8_t list[2 * NOTICE_BYTES] = {0};
        for (size_t k = 0; k < trial->count; k++)
            put_notice(list, k, trial->notices[k]);
        uint32_t answer = ibisladder_check(trial->winter, trial->profile, list, trial->count * NOTICE_BYTES);
        right = print_answer(trial->tried, answer, trial->number, trial->place) && right;
    }
    return right;
}

/* 25 notices of four hours are the winter's 100 hours; one hour more is too many, and so is a byte more. */
static bool try_long_list(void)
{
    uint8_t list[26 * NOTICE_BYTES];
    for (uint32_t i = 0; i < 25; i++)
        put_notice(list, i, (struct notice){63 + i, 6, 10});
    put_notice(list, 25, (struct notice){63 + 25, 6, 7});

    bool right = print_answer("100 hours", ibisladder_check(WINTER, 1, list, 25 * NOTICE_BYTES), 0, 0);
    uint32_t answer = ibisladder_check(WINTER, 1, list, sizeof list);
    right = print_answer("101 hours", answer, IBISLADDER_REFUSED_TOTAL, 25) && right;
    answer = ibisladder_check(WINTER, 1, list, 25 * NOTICE_BYTES + 1);
    return print_answer("a byte over", answer, IBISLADDER_REFUSED_LIST, 0) && right;
}

static bool is_untouched(const uint8_t *out, size_t length, uint8_t mark)
{
    for (size_t i = 0; i < length; i++)
        if (out[i] != mark)
            return false;
    return true;
}

/* Calls that the settlement refuses for other reasons than the list: none writes to the output. */
static bool try_settlements(const uint8_t *book)
{
    const uint8_t mark = 0xA5;
    uint8_t list[NOTICE_BYTES], out[LINE_BYTES];
    put_notice(list, 0, (struct notice){38, 6, 9});
    memset(out, mark, sizeof out);

    uint32_t answer = ibisladder_settle(WINTER, book, BOOK_BYTES - 1, 51967, list, sizeof list, out, sizeof out);
    bool right = print_answer("a byte of the book missing", answer, IBISLADDER_REFUSED_BOOK, 0);
    answer = ibisladder_settle(WINTER + 1, book, BOOK_BYTES, 51967, list, sizeof list, out, sizeof out);
    right = print_answer("151 days in a leap year", answer, IBISLADDER_REFUSED_BOOK, 0) && right;
    answer = ibisladder_settle(WINTER, book, BOOK_BYTES, 0, list, sizeof list, out, sizeof out);
    right = print_answer("no price", answer, IBISLADDER_REFUSED_PRICE, 0) && right;
    answer = ibisladder_settle(WINTER, book, BOOK_BYTES, 51967, list, sizeof list, out, sizeof out - 1);
    right = print_answer("a byte of the output missing", answer, IBISLADDER_REFUSED_OUTPUT, 0) && right;

    bool untouched = is_untouched(out, sizeof out, mark);
    printf("written by these: %s\n", untouched ? "nothing" : "something");
    return right && untouched;
}

/* Calls on a medium-power site that are refused for its references or its outputs: none writes to either output. */
static bool try_sites(const uint8_t *book)
{
    const uint8_t mark = 0x5A;
    uint8_t list[2 * NOTICE_BYTES], references[2 * IBISLADDER_NUMBER_BYTES], out[2 * POWER_LINE_BYTES], totals[TOTALS_BYTES];
    put_notice(list, 0, (struct notice){38, 6, 9});
    put_notice(list, 1, (struct notice){39, 6, 9});
    put_number(references, 0, IBISLADDER_HIGHEST_REFERENCE);
    put_number(references, 1, IBISLADDER_HIGHEST_REFERENCE + 1);
    memset(out, mark, sizeof out);
    memset(totals, mark, sizeof totals);

    uint32_t answer = ibisladder_power(WINTER, book, BOOK_BYTES, list, sizeof list, references, IBISLADDER_NUMBER_BYTES, out,
                                       sizeof out, totals, sizeof totals);
    bool right = print_answer("one reference for two notices", answer, IBISLADDER_REFUSED_REFERENCES, 0);
    answer = ibisladder_power(WINTER, book, BOOK_BYTES, list, sizeof list, references, sizeof references, out, sizeof out, totals,
                              sizeof totals);
    right = print_answer("a second reference of 10,000,001 W", answer, IBISLADDER_REFUSED_REFERENCE, 1) && right;
    answer = ibisladder_power(WINTER, book, BOOK_BYTES, list, sizeof list, references, sizeof references, out, sizeof out, totals,
                              sizeof totals - 1);
    right = print_answer("a byte of the totals missing", answer, IBISLADDER_REFUSED_OUTPUT, 0) && right;

    bool untouched = is_untouched(out, sizeof out, mark) && is_untouched(totals, sizeof totals, mark);
    printf("written by these: %s\n", untouched ? "nothing" : "something");
    return right && untouched;
}

int main(void)
{
    uint8_t book[BOOK_BYTES];
    bool right = settle_sample(book);
    right = settle_at_limit(book) && right;
    right = settle_halves(book) && right;
    right = settle_medium_power(book) && right;
    right = settle_at_bound(book) && right;
    right = try_lists() && right;
    right = try_long_list() && right;
    right = try_settlements(book) && right;
    right = try_sites(book) && right;
    if (!right)
        fprintf(stderr, "host: an answer is another one\n");
    return right ? EXIT_SUCCESS : EXIT_FAILURE;
}
