/* See trial.h. */

#include "trial.h"

#include <inttypes.h>
#include <stdio.h>
#include <stdlib.h>
#include <string.h>

#ifdef __SANITIZE_ADDRESS__
#include <sanitizer/common_interface_defs.h>
#endif

/* Answers and lines are counted by their number and code; what is above is counted as 63. */
enum { COUNTED = 64 };

struct places {
    struct part list, references, book, out, totals;
};

/* A call: what it was lent, and its answer. */
struct made {
    const struct trial *trial;
    struct places *places;
    const uint8_t *list, *references;
    uint32_t answer;
};

struct outcome {
    uint32_t answer;
    uint8_t lines[MOST_NOTICES * LINE_BYTES];
    uint8_t totals[TOTALS_BYTES];
};

/* The functions, and the lines of those that write some. */
static const char *const NAMES[FUNCTIONS] = {"check", "settle", "power"};
static const char *const LINES[FUNCTIONS] = {"none", "line", "event"};

static enum side side;
static struct places here, elsewhere;
static const struct trial *tried;
static uint32_t last_answer;
static unsigned long calls, numbers_given[FUNCTIONS][COUNTED], codes_given[FUNCTIONS][COUNTED];

/* What is said of a difference. */

static void say_lent(const char *name, struct lent lent)
{
    fprintf(stderr, "  %s: %zu bytes, %zu from the guard page:", name, lent.length, lent.distance);
    for (size_t i = 0; i < lent.length && i < 4 * NOTICE_BYTES; i++)
        fprintf(stderr, "%s%02x", i % NUMBER_BYTES == 0 ? " " : "", lent.bytes[i]);
    fprintf(stderr, "\n");
}

static void say_trial(void)
{
    if (tried == NULL)
        return;
    fprintf(stderr, "call %lu, %s: winter %" PRIu32 ", profile or price %" PRIu32
            ", guard page %s\n", calls, NAMES[tried->function], tried->winter, tried->number,
            side == AT_START ? "before" : "behind");
    fprintf(stderr, "  last answer: %" PRIu32 ",%" PRIu32 "\n", ibisladder_number(last_answer),
            ibisladder_place(last_answer));
    say_lent("list", tried->list);
    if (tried->function != CHECK) {
        say_lent("book", tried->book);
        say_lent("output", tried->out);
    }
    if (tried->function == POWER) {
        say_lent("references", tried->references);
        say_lent("totals", tried->totals);
    }
}

_Noreturn void say_difference(const char *difference)
{
    fprintf(stderr, "hostile: %s\n", difference);
    say_trial();
    exit(EXIT_FAILURE);
}

static void hold(bool right, const char *difference)
{
    if (!right)
        say_difference(difference);
}

/* Lending. */

static void set_up_places(struct places *places)
{
    set_up_part(&places->list, LIST_ROOM);
    set_up_part(&places->references, REFERENCES_ROOM);
    set_up_part(&places->book, BOOK_ROOM);
    set_up_part(&places->out, OUT_ROOM);
    set_up_part(&places->totals, TOTALS_ROOM);
}

void set_up_trials(enum side wanted)
{
    side = wanted;
    catch_faults();
    set_up_places(&here);
    set_up_places(&elsewhere);
#ifdef __SANITIZE_ADDRESS__
    __sanitizer_set_death_callback(say_trial); /* a report alone does not say which call it was */
#endif
}

static void turn_over(uint8_t *bytes, size_t length)
{
    for (size_t i = 0; i < length; i++)
        bytes[i] = (uint8_t)~bytes[i];
}

/* Elsewhere a part lies one byte further, so that its address is aligned otherwise. */
static void put_in_place(struct part *part, struct lent lent, bool moved)
{
    place_part(part, side, (lent.distance + moved) % (FARTHEST + 1), lent.length);
    memcpy(part->first, lent.bytes, lent.length);
}

/* Elsewhere an input cannot be written to at all. */
static void lend_input(struct part *part, struct lent lent, bool moved)
{
    put_in_place(part, lent, moved);
    remember_part(part);
    if (moved)
        lock_room(part);
    close_room(part);
}

/* Elsewhere every byte of the output is another one: a byte of a line that is not written would
 * differ then. */
static void lend_output(struct part *part, struct lent lent, bool moved)
{
    put_in_place(part, lent, moved);
    if (moved)
        turn_over(part->first, lent.length);
    remember_part(part);
    close_room(part);
}

/* What the medium-power settlement alone is lent. */
static void lend_power(struct made *made, bool moved)
{
    const struct trial *trial = made->trial;
    struct places *places = made->places;
    lend_input(&places->references, trial->references, moved);
    lend_output(&places->totals, trial->totals, moved);
    made->references = places->references.first;
    if (trial->references_in_book && !moved)
        made->references = places->book.first + (trial->references.bytes - trial->book.bytes);
}

static void lend_all(struct made *made)
{
    const struct trial *trial = made->trial;
    struct places *places = made->places;
    bool moved = places == &elsewhere;
    lend_input(&places->list, trial->list, moved);
    made->list = places->list.first;
    if (trial->function == CHECK)
        return;
    lend_input(&places->book, trial->book, moved);
    lend_output(&places->out, trial->out, moved);
    if (trial->list_in_book && !moved)
        made->list = places->book.first + (trial->list.bytes - trial->book.bytes);
    if (trial->function == POWER)
        lend_power(made, moved);
}

static void take_back_all(struct places *places)
{
    open_room(&places->list);
    open_room(&places->references);
    open_room(&places->book);
    open_room(&places->out);
    open_room(&places->totals);
}

static void call(void *given)
{
    struct made *made = given;
    const struct trial *trial = made->trial;
    const struct part *book = &made->places->book, *out = &made->places->out;
    const struct part *totals = &made->places->totals;
    size_t list_length = trial->list.length;
    if (trial->function == CHECK)
        made->answer = ibisladder_check(trial->winter, trial->number, made->list, list_length);
    else if (trial->function == SETTLE)
        made->answer = ibisladder_settle(trial->winter, book->first, book->length, trial->number,
                                         made->list, list_length, out->first, out->length);
    else
        made->answer = ibisladder_power(trial->winter, book->first, book->length, made->list,
                                        list_length, made->references, trial->references.length,
                                        out->first, out->length, totals->first, totals->length);
}

/* What an answer and its lines may be. */

size_t book_length(uint32_t winter)
{
    uint32_t days = winter % 4 == 3 ? IBISLADDER_DAYS_LEAP : IBISLADDER_DAYS;
    return days * IBISLADDER_HOURS * NUMBER_BYTES;
}

static bool is_possible(enum function function, uint32_t number)
{
    switch (number) {
    case IBISLADDER_ACCEPTED:
    case IBISLADDER_REFUSED_WINTER:
    case IBISLADDER_REFUSED_LIST:
    case IBISLADDER_REFUSED_DAY:
    case IBISLADDER_REFUSED_EXCLUDED:
    case IBISLADDER_REFUSED_HOURS:
    case IBISLADDER_REFUSED_NO_BAND:
    case IBISLADDER_REFUSED_ACROSS:
    case IBISLADDER_REFUSED_ORDER:
    case IBISLADDER_REFUSED_TOTAL: return true;
    case IBISLADDER_REFUSED_PROFILE: return function == CHECK;
    case IBISLADDER_REFUSED_WEEKEND:
    case IBISLADDER_REFUSED_LENGTH: return function != SETTLE;
    case IBISLADDER_REFUSED_BOOK:
    case IBISLADDER_REFUSED_OUTPUT: return function != CHECK;
    case IBISLADDER_REFUSED_BAND: return function != POWER;
    case IBISLADDER_REFUSED_PRICE: return function == SETTLE;
    case REFUSED_REFERENCES:
    case REFUSED_REFERENCE: return function == POWER;
    default: return false;
    }
}

/* Little-endian, of so many bytes. */
static uint64_t number_at(const uint8_t *bytes, size_t length)
{
    uint64_t number = 0;
    while (length-- > 0)
        number = number << 8 | bytes[length];
    return number;
}

/* The index of the first reference that is too high, or else how many there are. */
static size_t first_high(const struct trial *trial)
{
    size_t count = trial->references.length / NUMBER_BYTES, i = 0;
    while (i < count
           && number_at(trial->references.bytes + NUMBER_BYTES * i, NUMBER_BYTES)
                  <= HIGHEST_REFERENCE)
        i++;
    return i;
}

/* The rest of the medium-power settlement's refusals before the notices. */
static uint32_t refusal_by_references(const struct trial *trial)
{
    size_t notices = trial->list.length / NOTICE_BYTES;
    if (trial->totals.length < TOTALS_BYTES)
        return IBISLADDER_REFUSED_OUTPUT;
    if (trial->references.length != notices * NUMBER_BYTES)
        return REFUSED_REFERENCES;
    return first_high(trial) < notices ? REFUSED_REFERENCE : 0;
}

/* The number that follows from numbers, lengths and references; 0 where the notices decide. */
static uint32_t refusal_before_notices(const struct trial *trial)
{
    size_t notices = trial->list.length / NOTICE_BYTES;
    bool whole = trial->list.length % NOTICE_BYTES == 0 && notices <= MOST_NOTICES;
    if (trial->winter < IBISLADDER_FIRST_WINTER || trial->winter > IBISLADDER_LAST_WINTER)
        return IBISLADDER_REFUSED_WINTER;
    if (trial->function == CHECK) {
        if (trial->number != 1 && trial->number != 2)
            return IBISLADDER_REFUSED_PROFILE;
        return whole ? 0 : IBISLADDER_REFUSED_LIST;
    }
    if (trial->book.length != book_length(trial->winter))
        return IBISLADDER_REFUSED_BOOK;
    if (trial->function == SETTLE
        && (trial->number < 1 || trial->number > IBISLADDER_HIGHEST_PRICE))
        return IBISLADDER_REFUSED_PRICE;
    if (!whole)
        return IBISLADDER_REFUSED_LIST;
    if (trial->out.length < notices * LINE_BYTES)
        return IBISLADDER_REFUSED_OUTPUT;
    return trial->function == POWER ? refusal_by_references(trial) : 0;
}

static bool is_of_notices(uint32_t number)
{
    return number >= IBISLADDER_REFUSED_DAY && number < REFUSED_REFERENCES;
}

static void judge_answer(const struct trial *trial, uint32_t answer)
{
    uint32_t number = ibisladder_number(answer), place = ibisladder_place(answer);
    uint32_t right = refusal_before_notices(trial);
    hold(is_possible(trial->function, number), "this function has no such number");
    if (right != 0)
        hold(number == right, "its numbers, lengths or references ask for another refusal");
    else
        hold(number == 0 || is_of_notices(number),
             "it is refused by its numbers, lengths or references, which are right");
    if (number == REFUSED_REFERENCE)
        hold(place == first_high(trial), "the place is not the first reference that is too high");
    else if (is_of_notices(number))
        hold(place < trial->list.length / NOTICE_BYTES, "the place is no notice");
    else
        hold(place == 0, "this number has no place");
}

static bool is_fault(const struct trial *trial, uint64_t code, uint64_t place)
{
    if (place >= trial->book.length / NUMBER_BYTES)
        return false;
    uint64_t reading = number_at(trial->book.bytes + NUMBER_BYTES * place, NUMBER_BYTES);
    if (code == IBISLADDER_EVENT_MISSING)
        return reading == IBISLADDER_MISSING;
    return reading > IBISLADDER_HIGHEST_READING && reading != IBISLADDER_MISSING;
}

/* 20 does not come up: November has as many reference days, and the medium-power settlement
 * asks for none. The last number of a line is its cents, or its reduction. */
static void judge_line(const struct trial *trial, const uint8_t *line)
{
    uint64_t code = number_at(line, 8), place = number_at(line + 8, 8);
    uint64_t energy = number_at(line + 16, 8), last = number_at(line + 24, 8);
    codes_given[trial->function][code < COUNTED ? code : COUNTED - 1]++;
    if (code == IBISLADDER_EVENT_SETTLED) {
        hold(place == 0, "a settled line has a place");
        return;
    }
    hold(code == IBISLADDER_EVENT_MISSING || code == IBISLADDER_EVENT_TOO_LARGE, "no such code");
    hold(is_fault(trial, code, place), "the reading at the place of a line has no such fault");
    hold(energy == 0 && last == 0, "a line that is not settled has energy, cents or a reduction");
}

/* Sum and count are those of the lines; the credit is compared elsewhere, and has a bound here. */
static void judge_totals(const uint8_t *lines, size_t written, const uint8_t *totals)
{
    uint64_t sum = 0, count = 0, credit = number_at(totals + 16, 8);
    for (size_t i = 0; i < written; i += LINE_BYTES) {
        sum += number_at(lines + i + 24, 8);
        count += number_at(lines + i, 8) == IBISLADDER_EVENT_SETTLED;
    }
    hold(number_at(totals, 8) == sum, "the sum is not that of the lines' reductions");
    hold(number_at(totals + 8, 8) == count, "the count is not that of the settled lines");
    hold(credit <= (count == 0 ? 0 : HIGHEST_CREDIT), "the credit is too high");
}

void count_answer(enum function function, uint32_t answer)
{
    uint32_t number = ibisladder_number(answer);
    calls++;
    last_answer = answer;
    numbers_given[function][number < COUNTED ? number : COUNTED - 1]++;
}

/* Trials. */

static size_t lines_written(const struct trial *trial, const struct outcome *outcome)
{
    return outcome->answer == 0 ? trial->list.length / NOTICE_BYTES * LINE_BYTES : 0;
}

static void take_lines(const struct trial *trial, const struct places *places,
                       struct outcome *outcome)
{
    size_t written = lines_written(trial, outcome);
    hold(!part_changed(&places->book), "the book, or a byte beside it, was changed");
    hold(!part_changed_beside(&places->out, written),
         written == 0 ? "a byte of an output without lines, or beside it, was changed"
                      : "a byte behind the last line, or beside the output, was changed");
    memcpy(outcome->lines, places->out.first, written);
    for (size_t i = 0; i < written; i += LINE_BYTES)
        judge_line(trial, outcome->lines + i);
}

static void take_totals(const struct trial *trial, const struct places *places,
                        struct outcome *outcome)
{
    size_t written = outcome->answer == 0 ? TOTALS_BYTES : 0;
    hold(!part_changed(&places->references), "the references, or a byte beside them, were changed");
    hold(!part_changed_beside(&places->totals, written),
         written == 0 ? "a byte of the totals of a refused call, or beside them, was changed"
                      : "a byte behind the last total, or beside the totals, was changed");
    memcpy(outcome->totals, places->totals.first, written);
    if (written > 0)
        judge_totals(outcome->lines, lines_written(trial, outcome), outcome->totals);
}

static void make_call(const struct trial *trial, struct places *places, struct outcome *outcome)
{
    struct made made = {trial, places, NULL, NULL, 0};
    lend_all(&made);
    bool outside = touches_outside(call, &made);
    take_back_all(places);
    count_answer(trial->function, made.answer);
    hold(!outside, "memory outside was touched");
    hold(!part_changed(&places->list), "the list, or a byte beside it, was changed");
    outcome->answer = made.answer;
    judge_answer(trial, made.answer);
    if (trial->function != CHECK)
        take_lines(trial, places, outcome);
    if (trial->function == POWER)
        take_totals(trial, places, outcome);
}

static void hold_same(const struct trial *trial, const struct outcome *one,
                      const struct outcome *other)
{
    hold(one->answer == other->answer, "the same call gave another answer");
    if (trial->function == CHECK || one->answer != 0)
        return;
    hold(memcmp(one->lines, other->lines, lines_written(trial, one)) == 0,
         "the same call gave other lines");
    if (trial->function == POWER)
        hold(memcmp(one->totals, other->totals, TOTALS_BYTES) == 0,
             "the same call gave other totals");
}

/* The list check under its profile answers the notices of a settlement as the settlement does. */
static void hold_to_check(const struct trial *trial, uint32_t answer)
{
    struct outcome checked;
    struct trial check = *trial;
    check.function = CHECK;
    check.number = trial->function == POWER ? IBISLADDER_PROFILE_POWER_OPTION
                                            : IBISLADDER_PROFILE_WINTER_CREDIT;
    tried = &check;
    make_call(&check, &here, &checked);
    tried = trial;
    hold(checked.answer == answer, "the settlement answers its notices otherwise");
}

void try_call(const struct trial *trial)
{
    static struct outcome first, again, moved;
    tried = trial;
    make_call(trial, &here, &first);
    make_call(trial, &here, &again);
    hold_same(trial, &first, &again);
    make_call(trial, &elsewhere, &moved);
    hold_same(trial, &first, &moved);
    if (trial->function != CHECK && refusal_before_notices(trial) == 0)
        hold_to_check(trial, first.answer);
    tried = NULL;
}

static void print_row(const char *name, const unsigned long *counts)
{
    for (size_t i = 0; i < COUNTED; i++)
        if (counts[i] != 0)
            printf("%s %zu %lu\n", name, i, counts[i]);
}

void print_counts(void)
{
    printf("calls %lu\n", calls);
    for (enum function function = 0; function < FUNCTIONS; function++) {
        print_row(NAMES[function], numbers_given[function]);
        print_row(LINES[function], codes_given[function]);
    }
}
