/* The plain C peer of two of the library's calls, with the same bytes in, bytes out and answers. See peer.c. */
#ifndef PEER_H
#define PEER_H

#include <stddef.h>
#include <stdint.h>

/* The days of a winter's book, 0 where there is no such winter. */
uint32_t peer_days(uint32_t winter);

uint32_t peer_check(uint32_t winter, uint32_t profile, const uint8_t *list, size_t list_length);

uint32_t peer_settle(uint32_t winter, const uint8_t *book, size_t book_length, uint32_t price, const uint8_t *list,
                     size_t list_length, uint8_t *out, size_t out_length);

#endif
