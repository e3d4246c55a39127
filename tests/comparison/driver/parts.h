/* Parts of memory to lend to the library, each between two pages that may not be touched.
 *
 * The room between the pages is a pattern but for the part itself. The last byte of a part is
 * just before the page behind, or its first byte just behind the page before, or a few bytes
 * off: so a part may begin at any address, and a read or write outside is seen as a fault or as
 * a broken pattern. Under the address sanitizer a closed room faults beside the part too. */
#ifndef PARTS_H
#define PARTS_H

#include <stdbool.h>
#include <stddef.h>
#include <stdint.h>

/* Which guard page a part lies at. */
enum side { AT_END, AT_START };

struct part {
    uint8_t *room;   /* the bytes between the guard pages */
    uint8_t *plain;  /* the pattern, as long as the room */
    uint8_t *before; /* the room as it was before the call */
    size_t room_length;
    uint8_t *first; /* what is lent */
    size_t length;
    bool locked;
};

/* Says why, and ends with exit status 2: the test itself cannot go on. */
void give_up(const char *reason);

/* Must come before the first part is set up. */
void catch_faults(void);

/* Whether an act was stopped because it touched memory that it may not touch. */
bool touches_outside(void (*act)(void *), void *given);

/* Makes a room of so many bytes at least, and sees that its guard pages stop a read. */
void set_up_part(struct part *part, size_t least);

/* Gives a part its place, so far from its guard page, and the pattern for its bytes. */
void place_part(struct part *part, enum side side, size_t distance, size_t length);

/* Remembers a part's bytes as those before the call. */
void remember_part(struct part *part);

/* Makes the room as it was before the call, for the next part where a call has spoiled it. */
void put_back_part(struct part *part);

/* Whether the room is another one than before the call. */
bool part_changed(const struct part *part);

/* The same of all its bytes but the first so many of the part. */
bool part_changed_beside(const struct part *part, size_t written);

/* Forbids writing to the room, and under the address sanitizer touching it beside the part. */
void lock_room(struct part *part);
void close_room(const struct part *part);

/* Allows both again. */
void open_room(struct part *part);

#endif
