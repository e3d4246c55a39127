/* Drawn numbers that are the same on every machine, for one seed. */
#ifndef DRAW_H
#define DRAW_H

#include <stdbool.h>
#include <stddef.h>
#include <stdint.h>

void seed_draws(uint64_t seed);

/* Any 64 bits. */
uint64_t draw(void);

/* A number below the bound, which is at least 1. */
uint32_t draw_below(uint32_t bound);

/* True once in so many times. */
bool draw_once_in(uint32_t times);

#define COUNT(array) (sizeof(array) / sizeof *(array))

/* One of the numbers. */
uint32_t draw_of(const uint32_t *numbers, size_t count);

#endif
