/* The plain C peer of the library's medium-power settlement, with the same bytes in, bytes out and answers. See power_peer.c. */
#ifndef POWER_PEER_H
#define POWER_PEER_H

#include <stddef.h>
#include <stdint.h>

uint32_t peer_power(uint32_t winter, const uint8_t *book, size_t book_length, const uint8_t *list, size_t list_length,
                    const uint8_t *references, size_t references_length, uint8_t *out, size_t out_length, uint8_t *totals,
                    size_t totals_length);

#endif
