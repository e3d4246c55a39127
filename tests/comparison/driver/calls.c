/* Calls the library from C for the comparison with the second program, query by query.
 *
 * Standard input is queries, standard output their answers, all numbers little-endian. A query
 * is ten numbers of 32 bits: call, winter, profile or price, placing, fill, and the lengths of
 * list, references, output, totals and book; then the bytes of the list, of the references and
 * of the book. A book's length of 4294967295 means the book of the query before, as it lies. An
 * answer is two numbers of 32 bits, the library's answer and the marks below, then the bytes of
 * the output and of the totals after the call. A call is lent what it has parameters for; the
 * lengths of all else are 0.
 *
 * Where the lent parts lie is said in parts.h, and how far from a guard page by the placing. */

#include <stdint.h>
#include <stdio.h>

#include "ibisladder.h"
#include "parts.h"

enum { ROOM = 5 * 4096 };

enum { CHECK = 1, SETTLE = 2, POWER = 3 };

/* Placing: which guard page a part lies at, and its distance from that page. */
enum { AT_GUARD_BEFORE = 1, DISTANCE = 15 << 1 };

/* Marks of an answer. */
enum {
    BOOK_CHANGED = 1,
    LIST_CHANGED = 2,
    AROUND_OUTPUT_CHANGED = 4,
    FAULT = 8,
    REFERENCES_CHANGED = 16,
    AROUND_TOTALS_CHANGED = 32
};

#define SAME_BOOK UINT32_MAX

struct query {
    uint32_t call, winter, number, placing, fill;
    uint32_t list_length, references_length, out_length, totals_length, book_length;
};

static struct part book, list, references, out, totals;

static void set_up_all(void)
{
    catch_faults();
    set_up_part(&book, ROOM);
    set_up_part(&list, ROOM);
    set_up_part(&references, ROOM);
    set_up_part(&out, ROOM);
    set_up_part(&totals, ROOM);
}

static void place(struct part *part, uint32_t placing, size_t length)
{
    enum side side = placing & AT_GUARD_BEFORE ? AT_START : AT_END;
    place_part(part, side, (placing & DISTANCE) >> 1, length);
}

static void read_part(struct part *part, uint32_t placing, size_t length)
{
    place(part, placing, length);
    if (fread(part->first, 1, length, stdin) != length)
        give_up("a query is cut short");
    remember_part(part);
}

/* An output before the call: byte i is fill plus 37 times i. Over queries of other fills no
 * number that is written can look like bytes that stay. */
static void fill_output(struct part *part, uint32_t placing, uint32_t fill, size_t length)
{
    place(part, placing, length);
    for (size_t i = 0; i < length; i++)
        part->first[i] = (uint8_t)(fill + 37 * i);
    remember_part(part);
}

static uint32_t number_at(const uint8_t *bytes)
{
    return bytes[0] | (uint32_t)bytes[1] << 8 | (uint32_t)bytes[2] << 16 | (uint32_t)bytes[3] << 24;
}

static int read_query(struct query *query)
{
    uint8_t header[40];
    size_t got = fread(header, 1, sizeof header, stdin);
    if (got == 0)
        return 0;
    if (got < sizeof header)
        give_up("a query is cut short");
    query->call = number_at(header);
    query->winter = number_at(header + 4);
    query->number = number_at(header + 8);
    query->placing = number_at(header + 12);
    query->fill = number_at(header + 16);
    query->list_length = number_at(header + 20);
    query->references_length = number_at(header + 24);
    query->out_length = number_at(header + 28);
    query->totals_length = number_at(header + 32);
    query->book_length = number_at(header + 36);
    return 1;
}

static void read_parts(const struct query *query)
{
    read_part(&list, query->placing, query->list_length);
    read_part(&references, query->placing, query->references_length);
    if (query->book_length != SAME_BOOK)
        read_part(&book, query->placing, query->book_length);
    fill_output(&out, query->placing, query->fill, query->out_length);
    fill_output(&totals, query->placing, query->fill, query->totals_length);
}

struct made {
    const struct query *query;
    uint32_t answer;
};

static void call(void *given)
{
    struct made *made = given;
    const struct query *query = made->query;
    if (query->call == CHECK)
        made->answer = ibisladder_check(query->winter, query->number, list.first, list.length);
    else if (query->call == SETTLE)
        made->answer = ibisladder_settle(query->winter, book.first, book.length, query->number,
                                         list.first, list.length, out.first, out.length);
    else if (query->call == POWER)
        made->answer = ibisladder_power(query->winter, book.first, book.length, list.first,
                                        list.length, references.first, references.length,
                                        out.first, out.length, totals.first, totals.length);
    else
        give_up("there is no such call");
}

static uint32_t found_changes(void)
{
    return (uint32_t)((part_changed(&book) ? BOOK_CHANGED : 0)
                      | (part_changed(&list) ? LIST_CHANGED : 0)
                      | (part_changed(&references) ? REFERENCES_CHANGED : 0)
                      | (part_changed_beside(&out, out.length) ? AROUND_OUTPUT_CHANGED : 0)
                      | (part_changed_beside(&totals, totals.length) ? AROUND_TOTALS_CHANGED : 0));
}

/* What a wrong call has changed is not to be seen again in the next one. */
static void put_back_all(void)
{
    put_back_part(&book);
    put_back_part(&list);
    put_back_part(&references);
    put_back_part(&out);
    put_back_part(&totals);
}

static void write_number(uint32_t number)
{
    for (int bit = 0; bit < 32; bit += 8)
        putchar((int)(number >> bit & 0xFF));
}

static void answer(const struct query *query)
{
    struct made made = {query, 0};
    uint32_t marks = touches_outside(call, &made) ? FAULT : 0;
    marks |= found_changes();
    write_number(made.answer);
    write_number(marks);
    fwrite(out.first, 1, out.length, stdout);
    fwrite(totals.first, 1, totals.length, stdout);
    if (marks != 0)
        put_back_all();
}

int main(void)
{
    struct query query;
    set_up_all();
    while (read_query(&query)) {
        read_parts(&query);
        answer(&query);
    }
    if (fflush(stdout) != 0)
        give_up("cannot write the answers");
    return 0;
}
