/* See parts.h. */

#define _DEFAULT_SOURCE /* mmap's MAP_ANONYMOUS, sigsetjmp */

#include "parts.h"

#include <setjmp.h>
#include <signal.h>
#include <stdio.h>
#include <stdlib.h>
#include <string.h>
#include <sys/mman.h>
#include <unistd.h>

#ifdef __SANITIZE_ADDRESS__
#include <sanitizer/asan_interface.h>
#else
#define ASAN_POISON_MEMORY_REGION(first, length) ((void)(first), (void)(length))
#define ASAN_UNPOISON_MEMORY_REGION(first, length) ((void)(first), (void)(length))
#endif

static sigjmp_buf before_act;
static volatile sig_atomic_t acting;

void give_up(const char *reason)
{
    fprintf(stderr, "tests/driver: %s\n", reason);
    exit(2);
}

/* A fault outside an act is the program's own: it is let happen again and ends the program. */
static void on_fault(int signal_number)
{
    if (acting)
        siglongjmp(before_act, signal_number);
    signal(signal_number, SIG_DFL);
}

void catch_faults(void)
{
    struct sigaction action;
    memset(&action, 0, sizeof action);
    action.sa_handler = on_fault;
    if (sigaction(SIGSEGV, &action, NULL) != 0 || sigaction(SIGBUS, &action, NULL) != 0)
        give_up("cannot catch faults");
}

bool touches_outside(void (*act)(void *), void *given)
{
    if (sigsetjmp(before_act, 1) != 0) {
        acting = 0;
        return true;
    }
    acting = 1;
    act(given);
    acting = 0;
    return false;
}

static void read_byte(void *byte)
{
    (void)*(const volatile uint8_t *)byte;
}

static uint8_t *allocated(size_t length)
{
    uint8_t *bytes = malloc(length);
    if (bytes == NULL)
        give_up("cannot get memory");
    return bytes;
}

static void protect_room(const struct part *part, int protection)
{
    if (mprotect(part->room, part->room_length, protection) != 0)
        give_up("cannot protect memory");
}

static void make_room(struct part *part, size_t page)
{
    int flags = MAP_PRIVATE | MAP_ANONYMOUS;
    uint8_t *guard = mmap(NULL, part->room_length + 2 * page, PROT_NONE, flags, -1, 0);
    if (guard == MAP_FAILED)
        give_up("cannot get memory");
    part->room = guard + page;
    protect_room(part, PROT_READ | PROT_WRITE);
}

void set_up_part(struct part *part, size_t least)
{
    size_t page = (size_t)sysconf(_SC_PAGESIZE);
    part->room_length = (least + page - 1) / page * page;
    make_room(part, page);
    /* Where guard pages do not work, no fault would ever be seen. */
    if (!touches_outside(read_byte, part->room - 1)
        || !touches_outside(read_byte, part->room + part->room_length))
        give_up("a guard page can be read");
    part->plain = allocated(part->room_length);
    part->before = allocated(part->room_length);
    for (size_t i = 0; i < part->room_length; i++)
        part->plain[i] = (uint8_t)(37 * i + i / 256 + 0xA5);
    memcpy(part->room, part->plain, part->room_length);
    memcpy(part->before, part->plain, part->room_length);
    part->first = part->room;
    part->length = 0;
    part->locked = false;
}

/* Makes the part that lay here a piece of the pattern again. */
static void clear_part(struct part *part)
{
    size_t start = (size_t)(part->first - part->room);
    memcpy(part->first, part->plain + start, part->length);
    memcpy(part->before + start, part->plain + start, part->length);
}

void place_part(struct part *part, enum side side, size_t distance, size_t length)
{
    if (length + distance > part->room_length)
        give_up("a part is too long");
    clear_part(part);
    size_t start = side == AT_START ? distance : part->room_length - distance - length;
    part->first = part->room + start;
    part->length = length;
}

void remember_part(struct part *part)
{
    memcpy(part->before + (part->first - part->room), part->first, part->length);
}

void put_back_part(struct part *part)
{
    memcpy(part->room, part->before, part->room_length);
}

bool part_changed(const struct part *part)
{
    return memcmp(part->room, part->before, part->room_length) != 0;
}

bool part_changed_beside(const struct part *part, size_t written)
{
    size_t start = (size_t)(part->first - part->room);
    size_t end = start + written;
    return memcmp(part->room, part->before, start) != 0
        || memcmp(part->room + end, part->before + end, part->room_length - end) != 0;
}

void lock_room(struct part *part)
{
    protect_room(part, PROT_READ);
    part->locked = true;
}

void close_room(const struct part *part)
{
    const uint8_t *end = part->first + part->length;
    ASAN_POISON_MEMORY_REGION(part->room, (size_t)(part->first - part->room));
    ASAN_POISON_MEMORY_REGION(end, (size_t)(part->room + part->room_length - end));
}

void open_room(struct part *part)
{
    ASAN_UNPOISON_MEMORY_REGION(part->room, part->room_length);
    if (part->locked)
        protect_room(part, PROT_READ | PROT_WRITE);
    part->locked = false;
}
