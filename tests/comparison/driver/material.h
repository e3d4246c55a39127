/* Lists, books and outputs to lend: some that are the same on every run, and drawn ones. */
#ifndef MATERIAL_H
#define MATERIAL_H

#include <stddef.h>
#include <stdint.h>

#include "trial.h"

/* Zeros, ones and noise are any bytes; a sound list stands in every winter under profile 1 as
 * far as its hundredth notice, a sound book has all readings, and no sound reference is too
 * high. */
enum kind { ZEROS, ONES, NOISE, SOUND, KINDS };

/* Must come before the others. */
void make_material(void);

const uint8_t *list_of(enum kind kind);
const uint8_t *references_of(enum kind kind);
const uint8_t *book_of(enum kind kind);
const uint8_t *output_of(enum kind kind);

/* A list that stands under profile 2 in winters 2026 and 2027, as far as its 33rd notice. */
const uint8_t *power_list(void);

/* Draws a list and gives its length in bytes. Most are of whole notices, many can stand. */
size_t draw_list(uint8_t *list);

/* The same, but under profile 2 in this winter. */
size_t draw_power_list(uint8_t *list, uint32_t winter);

/* Draws all bytes of references. Most are sound, and in some one reference is at the bound or
 * too high. */
void draw_references(uint8_t *bytes);

/* Draws all bytes of a book. Most have readings, some of them with faults. */
void draw_book(uint8_t *book);

#endif
