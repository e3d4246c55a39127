/*
 * The texts that statement.c measures: the winter of winter.h, 100 notices and a reading for every hour of its book. They are written
 * with a 0 behind them, for which there is to be room.
 */
#ifndef TEXT_H
#define TEXT_H

#include <stddef.h>
#include <stdint.h>

#define LARGEST_TEXT 65536

/*
 * The largest text: each hour has a line of its own, and as many readings have six digits and not five as fill 65,536 bytes. No
 * text that is accepted has more bytes, and none of this winter has more notices, lines or readings. Gives its length.
 */
size_t largest_text(uint8_t *text);

/* The same notices and readings with a line a day, as a program would write them. Gives its length. */
size_t daily_text(uint8_t *text);

#endif
