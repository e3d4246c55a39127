/* See draw.h. The generator is splitmix64, which is short and takes any seed. */

#include "draw.h"

static uint64_t state;

void seed_draws(uint64_t seed)
{
    state = seed;
}

uint64_t draw(void)
{
    state += 0x9E3779B97F4A7C15u;
    uint64_t mixed = state;
    mixed = (mixed ^ mixed >> 30) * 0xBF58476D1CE4E5B9u;
    mixed = (mixed ^ mixed >> 27) * 0x94D049BB133111EBu;
    return mixed ^ mixed >> 31;
}

uint32_t draw_below(uint32_t bound)
{
    return (uint32_t)(draw() >> 32) % bound;
}

bool draw_once_in(uint32_t times)
{
    return draw_below(times) == 0;
}

uint32_t draw_of(const uint32_t *numbers, size_t count)
{
    return numbers[draw_below((uint32_t)count)];
}
