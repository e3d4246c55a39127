/* The plain C peer of the library's call on a text. See statement_peer.c. */
#ifndef STATEMENT_PEER_H
#define STATEMENT_PEER_H

#include <stddef.h>
#include <stdint.h>

#define MOST_TEXT_BYTES 65536
#define STATEMENT_BYTES 20480 /* room for any statement */

/* Writes the statement of a text, or the line that refuses it, and gives its length. The output has STATEMENT_BYTES. */
size_t peer_statement(const uint8_t *text, size_t length, uint8_t *out);

#endif
