/* The plain C peer as a program: it reads a text from standard input to its end and writes the statement to standard output. */
#define _POSIX_C_SOURCE 200809L

#include <stdlib.h>
#include <unistd.h>

#include "statement_peer.h"

static size_t read_all(uint8_t *bytes, size_t room)
{
    size_t length = 0;
    ssize_t got = 1;
    while (length < room && (got = read(STDIN_FILENO, bytes + length, room - length)) > 0)
        length += (size_t)got;
    return length;
}

static int write_all(const uint8_t *bytes, size_t length)
{
    while (length > 0) {
        ssize_t put = write(STDOUT_FILENO, bytes, length);
        if (put <= 0)
            return EXIT_FAILURE;
        bytes += put;
        length -= (size_t)put;
    }
    return EXIT_SUCCESS;
}

int main(void)
{
    static uint8_t text[MOST_TEXT_BYTES + 1]; /* a byte more, by which a text that is too long shows */
    static uint8_t out[STATEMENT_BYTES];
    size_t length = read_all(text, sizeof text);
    return write_all(out, peer_statement(text, length, out));
}
