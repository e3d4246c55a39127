/*
 * A plain C peer of the library's call on a text, written from the specification the way C programs are: one pass over the bytes, and each
 * number is put where the settlement of peer.c reads it. The speed of the proved library is measured against it. It is no part of
 * what is delivered.
 */
#include "statement_peer.h"

#include <stdbool.h>
#include <string.h>

#include "peer.h"

enum {
    MOST_DAYS = 152,
    HOURS_A_DAY = 24,
    MOST_EVENTS = 100,
    NUMBER_BYTES = 4,
    NOTICE_BYTES = 12,
    LINE_BYTES = 32,
    MOST_DIGITS = 20 /* of a number of 64 bits */
};

#define HIGHEST_NUMBER 4294967294u

struct reader {
    const uint8_t *at;
    const uint8_t *end;
    uint32_t line; /* from 1: the one that is being read */
};

/* What a text says. Of more than 100 notices the list has the first: the others only count, since they are refused. */
struct account {
    uint32_t winter;
    uint32_t hours; /* of the winter's book, 0 where there is no such winter */
    uint32_t price;
    uint32_t events;
    uint32_t next_hour;  /* the first that the next read line may have */
    uint32_t wrong_line; /* the first read line that 31 refuses, 0 if none */
    uint8_t list[NOTICE_BYTES * MOST_EVENTS];
    uint8_t book[NUMBER_BYTES * HOURS_A_DAY * MOST_DAYS];
};

static void put_number(uint8_t *numbers, uint32_t index, uint32_t number)
{
    for (uint32_t byte = 0; byte < NUMBER_BYTES; byte++)
        numbers[NUMBER_BYTES * index + byte] = (uint8_t)(number >> 8 * byte);
}

static uint32_t number_at(const uint8_t *list, uint32_t index)
{
    const uint8_t *at = list + NUMBER_BYTES * index;
    return (uint32_t)at[0] | (uint32_t)at[1] << 8 | (uint32_t)at[2] << 16 | (uint32_t)at[3] << 24;
}

static uint64_t long_number_at(const uint8_t *at)
{
    uint64_t number = 0;
    for (int byte = 8; byte-- > 0;)
        number = number << 8 | at[byte];
    return number;
}

/* Reading. Each call takes what it names, or says false and leaves the reader somewhere in the line that breaks the form. */

static bool take_byte(struct reader *reader, uint8_t byte)
{
    if (reader->at == reader->end || *reader->at != byte)
        return false;
    reader->at++;
    return true;
}

static bool take_word(struct reader *reader, const char *word)
{
    size_t length = strlen(word);
    if ((size_t)(reader->end - reader->at) < length || memcmp(reader->at, word, length) != 0)
        return false;
    reader->at += length;
    return true;
}

static bool take_number(struct reader *reader, uint32_t *number)
{
    const uint8_t *first = reader->at, *at = first;
    uint64_t value = 0;
    /* The test of the value keeps a long row of digits from wrapping round. */
    for (; at < reader->end && '0' <= *at && *at <= '9' && value <= HIGHEST_NUMBER; at++)
        value = 10 * value + (*at - (uint64_t)'0');
    reader->at = at;
    *number = (uint32_t)value;
    return at > first && (*first != '0' || at == first + 1) && value <= HIGHEST_NUMBER;
}

static bool take_line_end(struct reader *reader)
{
    if (!take_byte(reader, '\n'))
        return false;
    reader->line++;
    return true;
}

/* A line of one number. */
static bool take_single(struct reader *reader, const char *word, uint32_t *number)
{
    return take_word(reader, word) && take_number(reader, number) && take_line_end(reader);
}

static bool take_event(struct reader *reader, struct account *account, uint32_t index)
{
    uint32_t day, start, end;
    if (!take_word(reader, "event=") || !take_number(reader, &day) || !take_byte(reader, ',') ||
        !take_number(reader, &start) || !take_byte(reader, ',') || !take_number(reader, &end) || !take_line_end(reader))
        return false;
    if (index < MOST_EVENTS) {
        put_number(account->list, 3 * index, day);
        put_number(account->list, 3 * index + 1, start);
        put_number(account->list, 3 * index + 2, end);
    }
    return true;
}

/* Puts the values of a read line into the book, if it is after the one before, and inside the book and the day. */
static void keep_read(struct account *account, uint32_t line, uint32_t day, uint32_t hour, const uint32_t *values,
                      uint32_t count)
{
    if (account->wrong_line != 0)
        return;
    if (day >= account->hours / HOURS_A_DAY || hour > HOURS_A_DAY - count ||
        HOURS_A_DAY * day + hour < account->next_hour) {
        account->wrong_line = line;
        return;
    }
    uint32_t first = HOURS_A_DAY * day + hour;
    for (uint32_t i = 0; i < count; i++)
        put_number(account->book, first + i, values[i]);
    account->next_hour = first + count;
}

static bool take_read(struct reader *reader, struct account *account)
{
    uint32_t day, hour, values[HOURS_A_DAY], count = 0, line = reader->line;
    if (!take_word(reader, "read=") || !take_number(reader, &day) || !take_byte(reader, ',') || !take_number(reader, &hour))
        return false;
    while (take_byte(reader, ',')) {
        if (count == HOURS_A_DAY || !take_number(reader, &values[count]))
            return false;
        count++;
    }
    if (count == 0 || !take_line_end(reader))
        return false;
    keep_read(account, line, day, hour, values, count);
    return true;
}

static bool take_text(struct reader *reader, struct account *account)
{
    uint32_t reads;
    if (!take_single(reader, "winter=", &account->winter) || !take_single(reader, "price=", &account->price) ||
        !take_single(reader, "events=", &account->events))
        return false;
    for (uint32_t i = 0; i < account->events; i++)
        if (!take_event(reader, account, i))
            return false;
    if (!take_single(reader, "reads=", &reads))
        return false;
    account->hours = HOURS_A_DAY * peer_days(account->winter);
    memset(account->book, 0xFF, NUMBER_BYTES * account->hours); /* unlisted hours are missing: 4294967295 */
    for (uint32_t i = 0; i < reads; i++)
        if (!take_read(reader, account))
            return false;
    return reader->at == reader->end;
}

/* Writing. Each call gives where the next byte goes. */

static uint8_t *put_word(uint8_t *at, const char *word)
{
    size_t length = strlen(word);
    memcpy(at, word, length);
    return at + length;
}

static uint8_t *put_decimal(uint8_t *at, uint64_t number)
{
    uint8_t digits[MOST_DIGITS], *first = digits + MOST_DIGITS;
    do {
        *--first = (uint8_t)('0' + number % 10);
        number /= 10;
    } while (number > 0);
    size_t length = (size_t)(digits + MOST_DIGITS - first);
    memcpy(at, first, length);
    return at + length;
}

static uint8_t *put_single(uint8_t *at, const char *word, uint64_t number)
{
    at = put_decimal(put_word(at, word), number);
    *at++ = '\n';
    return at;
}

static size_t put_refusal(uint8_t *out, uint32_t number, uint32_t place)
{
    uint8_t *at = put_decimal(put_word(out, "refused="), number);
    *at++ = ',';
    at = put_decimal(at, place);
    *at++ = '\n';
    return (size_t)(at - out);
}

static uint8_t *put_line(uint8_t *at, const uint8_t *notice, const uint8_t *line)
{
    at = put_word(at, "line=");
    for (uint32_t i = 0; i < 3; i++) {
        at = put_decimal(at, number_at(notice, i));
        *at++ = ',';
    }
    for (uint32_t i = 0; i < 4; i++) {
        at = put_decimal(at, long_number_at(line + 8 * i));
        *at++ = i < 3 ? ',' : '\n';
    }
    return at;
}

static size_t put_statement(uint8_t *out, const struct account *account, const uint8_t *lines)
{
    uint64_t energy = 0, cents = 0;
    uint8_t *at = put_single(out, "winter=", account->winter);
    at = put_single(at, "price=", account->price);
    at = put_single(at, "events=", account->events);
    for (uint32_t i = 0; i < account->events; i++) {
        const uint8_t *line = lines + LINE_BYTES * i;
        at = put_line(at, account->list + NOTICE_BYTES * i, line);
        energy += long_number_at(line + 16);
        cents += long_number_at(line + 24);
    }
    at = put_single(at, "energy=", energy);
    at = put_single(at, "total=", cents);
    return (size_t)(at - out);
}

size_t peer_statement(const uint8_t *text, size_t length, uint8_t *out)
{
    struct reader reader = {text, text + length, 1};
    struct account account;
    uint8_t lines[LINE_BYTES * MOST_EVENTS];
    account.next_hour = account.wrong_line = 0;
    if (length > MOST_TEXT_BYTES)
        return put_refusal(out, 32, 0);
    if (!take_text(&reader, &account))
        return put_refusal(out, 30, reader.line);
    if (account.hours == 0)
        return put_refusal(out, 1, 0);
    if (account.wrong_line != 0)
        return put_refusal(out, 31, account.wrong_line);
    uint32_t answer = peer_settle(account.winter, account.book, NUMBER_BYTES * (size_t)account.hours, account.price,
                                  account.list, NOTICE_BYTES * (size_t)account.events, lines, sizeof lines);
    if (answer != 0)
        return put_refusal(out, answer >> 16, answer & 65535);
    return put_statement(out, &account, lines);
}
