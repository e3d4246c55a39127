/* Makes the library's call on a text for the comparison with the second program, query by query.
 *
 * Standard input is queries, standard output their answers, all numbers little-endian. A query is
 * two numbers of 32 bits, how long the text and the output are, then the bytes of the text. An
 * answer is two numbers of 32 bits, the library's answer and the marks below, then the output's
 * bytes after the call; before it byte i is 37 times i. Both parts end before a guard page. */

#include <stdint.h>
#include <stdio.h>

#include "parts.h"
#include "probe.h"

enum { LONGEST_TEXT = 65552, LONGEST_OUTPUT = 24576 };

/* Marks of an answer, with the values that they have in calls.c. */
enum { TEXT_CHANGED = 1, AROUND_OUTPUT_CHANGED = 4, FAULT = 8 };

static struct part text, out;

/* Reads a number; -1 where there is nothing more to read. */
static int64_t read_number(void)
{
    uint8_t bytes[4];
    size_t got = fread(bytes, 1, sizeof bytes, stdin);
    if (got == 0)
        return -1;
    if (got < sizeof bytes)
        give_up("a query is cut short");
    return bytes[0] | (int64_t)bytes[1] << 8 | (int64_t)bytes[2] << 16 | (int64_t)bytes[3] << 24;
}

static void read_parts(int64_t text_length, int64_t out_length)
{
    if (text_length > LONGEST_TEXT || out_length < 0 || out_length > LONGEST_OUTPUT)
        give_up("a query is too long, or cut short");
    place_part(&text, AT_END, 0, (size_t)text_length);
    if (fread(text.first, 1, text.length, stdin) != text.length)
        give_up("a query is cut short");
    remember_part(&text);
    place_part(&out, AT_END, 0, (size_t)out_length);
    for (size_t i = 0; i < out.length; i++)
        out.first[i] = (uint8_t)(37 * i);
    remember_part(&out);
}

static void call(void *answer)
{
    *(size_t *)answer = probe_statement(text.first, text.length, out.first, out.length);
}

static void write_number(uint32_t number)
{
    for (int bit = 0; bit < 32; bit += 8)
        putchar((int)(number >> bit & 0xFF));
}

static void answer_query(void)
{
    size_t answer = 0;
    uint32_t marks = touches_outside(call, &answer) ? FAULT : 0;
    marks |= (uint32_t)((part_changed(&text) ? TEXT_CHANGED : 0)
                        | (part_changed_beside(&out, out.length) ? AROUND_OUTPUT_CHANGED : 0));
    write_number((uint32_t)answer);
    write_number(marks);
    fwrite(out.first, 1, out.length, stdout);
    if (marks != 0) {
        put_back_part(&text);
        put_back_part(&out);
    }
}

int main(void)
{
    int64_t length;
    catch_faults();
    set_up_part(&text, LONGEST_TEXT);
    set_up_part(&out, LONGEST_OUTPUT);
    while ((length = read_number()) >= 0) {
        read_parts(length, read_number());
        answer_query();
    }
    if (fflush(stdout) != 0)
        give_up("cannot write the answers");
    return 0;
}
