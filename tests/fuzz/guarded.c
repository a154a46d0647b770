#define _GNU_SOURCE
#include "guarded.h"

#include <stdio.h>
#include <stdlib.h>
#include <string.h>
#include <sys/mman.h>
#include <unistd.h>

/* How much around the placed bytes is patterned. */
#define MARGIN 4096

struct guarded guarded_new(size_t most) {
    size_t page = (size_t)sysconf(_SC_PAGESIZE);
    size_t size = (most + page - 1) / page * page;
    uint8_t *start =
        mmap(NULL, size + 2 * page, PROT_NONE, MAP_PRIVATE | MAP_ANONYMOUS, -1, 0);
    if (start == MAP_FAILED || mprotect(start + page, size, PROT_READ | PROT_WRITE) != 0) {
        perror("guarded memory");
        exit(2);
    }
    struct guarded room = {start + page, size};
    return room;
}

/* The patterned bytes before and after the placed ones. */
static void margins(const struct guarded *room, const uint8_t *placed, size_t length,
                    size_t *before, size_t *after) {
    size_t front = (size_t)(placed - room->pages);
    size_t back = room->size - front - length;
    *before = front < MARGIN ? front : MARGIN;
    *after = back < MARGIN ? back : MARGIN;
}

uint8_t *guarded_place(struct guarded *room, size_t length, int at_end, uint8_t pattern) {
    uint8_t *placed = room->pages + (at_end ? room->size - length : 0);
    size_t before, after;
    margins(room, placed, length, &before, &after);
    memset(placed - before, pattern, before);
    memset(placed + length, pattern, after);
    return placed;
}

int guarded_intact(const struct guarded *room, const uint8_t *placed, size_t length,
                   uint8_t pattern) {
    size_t before, after;
    margins(room, placed, length, &before, &after);
    for (size_t i = 0; i < before; i++)
        if (placed[-1 - (ptrdiff_t)i] != pattern) return 0;
    for (size_t i = 0; i < after; i++)
        if (placed[length + i] != pattern) return 0;
    return 1;
}
