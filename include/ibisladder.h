/*
 * Ibisladder: what a building spared in the peaks of a winter, and what that is worth in cents.
 *
 * Three calls. ibisladder_check says whether a list of notices can stand together under the rules of a tariff, and if not, which
 * rule it breaks first and where. ibisladder_settle works out, for each notice of such a list, the energy spared and its worth.
 * ibisladder_power settles the notices of a medium-power site, which is credited for the mean power that it spared. All three are
 * proved to answer every input as the specification says; nothing has to be checked before a call.
 *
 * The archive libibisladder.a is position-independent code for x86-64 Linux and needs nothing but memcpy and memset. The shared
 * library libibisladder.so is the same code.
 *
 *
 * Words and units
 *
 *   winter    has the name Y, the year in which its December lies, 2010 to 2098: winter 2026 is that of 2026/27.
 *   day       counted from 1 November Y, which is day 0, so that 1 December is day 30 and 31 March Y+1 is day N-1.
 *             N is 152 where Y+1 can be divided by 4 (in this range: a leap year), and 151 in other winters.
 *   hour      0 to 23 by the clock, 24 in the book on every day. Hour h lasts until hour h+1 begins. On the second Sunday of March
 *             Y+1 the clocks go forward and there is no hour 2; its place in the book stays, and any number may stand there.
 *   reading   the energy drawn in one hour, in Wh: 0 to 10,000,000. IBISLADDER_MISSING stands for a missing one.
 *   book      all readings of a winter: 24 N numbers of 32 bits, day by day, the reading of an hour at index 24 * day + hour.
 *   notice    three numbers of 32 bits: its day, its first hour s, and the hour e at which it ends. Hour e is not one of its hours.
 *   list      0 to 100 notices, one behind the other, in the order of time.
 *   band      the hours of a morning or of an evening in which a profile has its events (enum ibisladder_profile). An hour above
 *             23, as the end of a notice may name it, is in none.
 *   price     in thousandths of a cent per kWh, 1 to 1,000,000.
 *   reference the power that the utility expects a medium-power site to draw in an event, in W: 0 to 10,000,000. References are
 *             numbers of 32 bits, one for each notice, in the order of the list.
 *   energy    what an event spared: in eighteenths of a Wh from ibisladder_settle, in Wh from ibisladder_power. The rules of the
 *             tariff then come out whole, and nothing is rounded.
 *   reduction the power that an event of a medium-power site spared, in twelfths of a W: its energy over its hours. Of these there
 *             are 3 or 4, so that this comes out whole too: in twelfths it is the energy times 4 or times 3.
 *   line      what a settlement writes for a notice: four numbers of 64 bits, which are the event code, its place, the energy
 *             spared, and its cents, or from ibisladder_power its reduction. None of them is ever negative.
 *   totals    what ibisladder_power writes beside its lines: three numbers of 64 bits, which are the reductions of all lines added
 *             up, how many events are settled, and the credit in cents.
 *
 * A line's cents are the rounded worth of all lines up to it, less the rounded worth of all lines before it (halves go up), so
 * that the cents of the lines add up to the rounded worth of their energies. The two totals of ibisladder_settle, energy and cents,
 * are the caller's to add up (docs/RULES.md, rule 9.8).
 *
 *
 * What the caller lends
 *
 * Lists, books, references and outputs are bytes: a pointer and a length in bytes. Numbers in them are little-endian, on every
 * machine, and need no alignment. Each pointer must be good for as many bytes as the length beside it says, and no byte beyond is
 * touched. It must not be NULL, not even beside the length 0: lend any address there, as that of a variable. An output, and the
 * totals are one too, must not overlap anything else that is lent, the other output included. The bytes themselves may be
 * anything.
 *
 * What is lent is used during the call alone: nothing is kept, nothing is taken from the heap, and only outputs are written to.
 *
 * There is no state: any number of threads may call at once, with all that is read in common, as long as each has outputs of its
 * own. A call needs at most IBISLADDER_STACK_BYTES of stack.
 */
#ifndef IBISLADDER_H
#define IBISLADDER_H

#include <stddef.h>
#include <stdint.h>

#ifdef __cplusplus
extern "C" {
#endif

/*
 * The version: major, minor, patch. While major and minor are the same, every call gives the same answer to the same input and
 * writes the same bytes, and each size, bound, number and layout of this header stays: a program built with one such version runs
 * with another. What may differ is the words of the two _text functions, the times and, below IBISLADDER_STACK_BYTES, the stack.
 */
#define IBISLADDER_VERSION_MAJOR 0
#define IBISLADDER_VERSION_MINOR 4
#define IBISLADDER_VERSION_PATCH 0
#define IBISLADDER_VERSION "0.4.0"

/* Sizes and bounds. */
#define IBISLADDER_FIRST_WINTER 2010u
#define IBISLADDER_LAST_WINTER 2098u
#define IBISLADDER_DAYS 151u             /* N, where the year after the winter's December is no leap year */
#define IBISLADDER_DAYS_LEAP 152u        /* N, where it is one */
#define IBISLADDER_HOURS 24u             /* hours of a day, in the book */
#define IBISLADDER_MOST_NOTICES 100u     /* notices of a list, at most */
#define IBISLADDER_NOTICE_NUMBERS 3u     /* numbers of a notice: day, first hour, end */
#define IBISLADDER_LINE_NUMBERS 4u       /* numbers of a line of ibisladder_settle: code, place, energy, cents */
#define IBISLADDER_POWER_LINE_NUMBERS 4u /* numbers of a line of ibisladder_power: code, place, energy, reduction */
#define IBISLADDER_TOTAL_NUMBERS 3u      /* numbers of the totals: reductions, settled events, credit */
#define IBISLADDER_REDUCTION_PARTS 12u   /* parts of a W: a reduction counts these */
#define IBISLADDER_NUMBER_BYTES 4u       /* bytes of a number in a book, a list or references */
#define IBISLADDER_OUT_NUMBER_BYTES 8u   /* bytes of a number in an output */
#define IBISLADDER_HIGHEST_PRICE 1000000u
#define IBISLADDER_HIGHEST_READING 10000000u
#define IBISLADDER_HIGHEST_REFERENCE 10000000u
#define IBISLADDER_MISSING 4294967295u   /* in a book: there is no reading of this hour */

/*
 * Bytes of stack that a call needs, at most. By the code: 20,720 in ibisladder_settle, 19,664 in ibisladder_power, 56 in
 * ibisladder_check.
 */
#define IBISLADDER_STACK_BYTES 24576u

/* The profiles: which rules a list is checked under. */
enum ibisladder_profile {
    /* Events in hours 6 to 9 or 16 to 19 on any day, 1 to 4 hours each. */
    IBISLADDER_PROFILE_WINTER_CREDIT = 1,
    /* Events in hours 6 to 8 or 16 to 19 from Monday to Friday, 3 or 4 hours each. */
    IBISLADDER_PROFILE_POWER_OPTION = 2
};

/*
 * Why a call is refused: the number of its answer. The place of 10 to 27 is the index of the notice, from 0, that of 41 the index
 * of the reference, and that of the others 0. Of several reasons the first of the call's order is given, which is said at each call.
 */
enum ibisladder_refusal {
    IBISLADDER_ACCEPTED = 0,            /* not refused */
    IBISLADDER_REFUSED_WINTER = 1,      /* the winter is outside 2010..2098 */
    IBISLADDER_REFUSED_BOOK = 2,        /* the book is not 24 N whole numbers long */
    IBISLADDER_REFUSED_PRICE = 3,       /* the price is outside 1..1,000,000 */
    IBISLADDER_REFUSED_LIST = 4,        /* the list is not of whole notices, or has more than 100 */
    IBISLADDER_REFUSED_PROFILE = 5,     /* the profile is neither 1 nor 2 */
    IBISLADDER_REFUSED_OUTPUT = 6,      /* fewer than four whole numbers a notice in the output, or than three in the totals */
    IBISLADDER_REFUSED_DAY = 10,        /* the day is outside the winter period, days 30 to N-1 */
    IBISLADDER_REFUSED_EXCLUDED = 11,   /* 24, 25, 26, 31 December, 1, 2 January, Good Friday or Easter Monday */
    IBISLADDER_REFUSED_WEEKEND = 12,    /* a Saturday or Sunday, under profile 2 */
    IBISLADDER_REFUSED_HOURS = 13,      /* the end is not after the start, as where the two are swapped */
    IBISLADDER_REFUSED_LENGTH = 14,     /* the profile does not allow so few or so many hours */
    IBISLADDER_REFUSED_ORDER = 15,      /* it starts before the notice before it ends, as a notice given twice does */
    IBISLADDER_REFUSED_BAND = 16,       /* it is on the day and in the band of the notice before it */
    IBISLADDER_REFUSED_TOTAL = 18,      /* with it the hours of the list pass 100 */
    IBISLADDER_REFUSED_NO_BAND = 26,    /* no hour lies in a band of the profile */
    IBISLADDER_REFUSED_ACROSS = 27,     /* some hours do, but not all in one band, as where the start is mistyped */
    IBISLADDER_REFUSED_REFERENCES = 40, /* there is not just one reference for each notice, or bytes are over */
    IBISLADDER_REFUSED_REFERENCE = 41   /* the reference is above 10,000,000 */
};

/*
 * How an event was settled: the first number of its line. A line that is not settled has energy 0, and 0 cents or reduction 0, and
 * stops no other. FEW_DAYS is for ibisladder_settle alone.
 */
enum ibisladder_event {
    IBISLADDER_EVENT_SETTLED = 0,   /* the energy is what was spared; place 0 */
    IBISLADDER_EVENT_FEW_DAYS = 20, /* fewer than five reference days; does not come up, since November has as many; place 0 */
    IBISLADDER_EVENT_MISSING = 21,  /* a needed reading is missing, the one at the place, 24 * day + hour */
    IBISLADDER_EVENT_TOO_LARGE = 22 /* a needed reading is above 10,000,000, the one at the place, 24 * day + hour */
};

/* An answer is 65,536 times the number plus the place, and 0 for an accepted call. */

/* The number of an answer, one of enum ibisladder_refusal. */
static inline uint32_t ibisladder_number(uint32_t answer)
{
    return answer >> 16;
}

/* The place of an answer. */
static inline uint32_t ibisladder_place(uint32_t answer)
{
    return answer & 65535u;
}

/*
 * Words for a refusal number or an event code, to put before a person: a constant in English without a full stop, never NULL. Any
 * other number has words too.
 */

static inline const char *ibisladder_refusal_text(uint32_t number)
{
    switch (number) {
    case IBISLADDER_ACCEPTED: return "accepted";
    case IBISLADDER_REFUSED_WINTER: return "the winter is outside 2010 to 2098";
    case IBISLADDER_REFUSED_BOOK: return "the book does not have the length of this winter";
    case IBISLADDER_REFUSED_PRICE: return "the price is outside 1 to 1,000,000";
    case IBISLADDER_REFUSED_LIST: return "the list is not of whole notices, or has more than 100";
    case IBISLADDER_REFUSED_PROFILE: return "the profile is neither 1 nor 2";
    case IBISLADDER_REFUSED_OUTPUT: return "the output has no room for a line for each notice, or the totals for three numbers";
    case IBISLADDER_REFUSED_DAY: return "the day is outside the winter period, 1 December to 31 March";
    case IBISLADDER_REFUSED_EXCLUDED: return "the day is excluded";
    case IBISLADDER_REFUSED_WEEKEND: return "this profile has no events on weekends";
    case IBISLADDER_REFUSED_HOURS: return "the end is not after the start";
    case IBISLADDER_REFUSED_LENGTH: return "this profile has no events of this length";
    case IBISLADDER_REFUSED_ORDER: return "it starts before the notice before it ends";
    case IBISLADDER_REFUSED_BAND: return "the day and band have a notice already";
    case IBISLADDER_REFUSED_TOTAL: return "with it the events have more than 100 hours";
    case IBISLADDER_REFUSED_NO_BAND: return "no hour is in a band of this profile";
    case IBISLADDER_REFUSED_ACROSS: return "not all hours are in one band of this profile";
    case IBISLADDER_REFUSED_REFERENCES: return "there is not one reference for each notice";
    case IBISLADDER_REFUSED_REFERENCE: return "the reference is above 10,000,000 W";
    default: return "a refusal that this version does not have";
    }
}

static inline const char *ibisladder_event_text(uint64_t code)
{
    switch (code) {
    case IBISLADDER_EVENT_SETTLED: return "settled";
    case IBISLADDER_EVENT_FEW_DAYS: return "there are fewer than five reference days";
    case IBISLADDER_EVENT_MISSING: return "a needed reading is missing";
    case IBISLADDER_EVENT_TOO_LARGE: return "a needed reading is above 10,000,000 Wh";
    default: return "a code that this version does not have";
    }
}

/*
 * Whether the notices of a list can stand together under a profile. list_length is in bytes: 12 a notice.
 *
 * Gives 0, or why not: 1, 5 and 4 in this order, then 10, 11, 12, 13, 26, 27, 14, 15, 16 and 18 in this order for the first
 * notice, then for the next. (Under profile 1 there is no 12 and no 14, under profile 2 no 16.) An empty list is accepted.
 */
uint32_t ibisladder_check(uint32_t winter, uint32_t profile, const uint8_t *list, size_t list_length);

/*
 * Settles the notices of a list under profile 1, the winter credit. Lengths are in bytes: 96 N the book, 12 a notice the list, and
 * at least 32 a notice the output.
 *
 * Gives 0 and has written a line for each notice, in the order of the list; what is behind the last line in the output is left as
 * it was. Or gives why not, and has written nothing: 1, 2, 3, 4 and 6 in this order, then the numbers of the notices as
 * ibisladder_check gives them under profile 1.
 *
 * A reading that no event needs is not looked at: it may be missing or anything else. Hour 2 of the Sunday the clocks go forward
 * is never needed: on that day events that start at 6 or 7 warm up in other hours, and for such events of later days it is no
 * reference day (docs/RULES.md, rules 5.1 and 5.4).
 */
uint32_t ibisladder_settle(uint32_t winter, const uint8_t *book, size_t book_length, uint32_t price, const uint8_t *list,
                           size_t list_length, uint8_t *out, size_t out_length);

/*
 * Settles the notices of a medium-power site under profile 2, the power option. Lengths are in bytes: 96 N the book, 12 a notice
 * the list, 4 a notice the references, at least 32 a notice the output, and at least 24 the totals.
 *
 * Gives 0 and has written a line for each notice, in the order of the list, and the three totals; what is behind the last line in
 * the output, and behind the third number in the totals, is left as it was. Or gives why not, and has written nothing to either:
 * 1, 2, 4, 6 and 40 in this order, then 41 for the first reference that is too high, then the numbers of the notices as
 * ibisladder_check gives them under profile 2.
 *
 * An event needs the readings of its own hours on its own day, and no other reading is looked at. Its energy is its reference times
 * the number of its hours, less these readings; where that is negative it is 0.
 *
 * The effective power is the mean of the reductions of the settled events, as an exact fraction. An event that is settled with
 * reduction 0 counts and pulls it down; one that is not settled does not count. The credit is the effective power times the rate
 * that it falls under, rounded once, to the nearest cent (halves go up). Where no event is settled it is 0. The rates go by kW:
 *
 *     under 15                 none
 *     15 to 199                66.69 dollars a kW
 *     above 199, to 599        61.56
 *     above 599, to 1,199      56.43
 *     above 1,199, to 1,799    51.30
 *     above 1,799              46.17
 *
 * A rate covers the whole power, so that past a bound the credit falls: 199 kW are worth more than 200 (docs/RULES.md, rule 11.9).
 */
uint32_t ibisladder_power(uint32_t winter, const uint8_t *book, size_t book_length, const uint8_t *list, size_t list_length,
                          const uint8_t *references, size_t references_length, uint8_t *out, size_t out_length,
                          uint8_t *totals, size_t totals_length);

#ifdef __cplusplus
}
#endif

#endif
