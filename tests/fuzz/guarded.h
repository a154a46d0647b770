/* Memory between pages that may not be touched: a step beyond it ends the program, also in code
   that was built without a sanitizer. */
#ifndef GUARDED_H
#define GUARDED_H

#include <stddef.h>
#include <stdint.h>

struct guarded {
    uint8_t *pages;
    size_t size;
};

/* Room for up to `most` bytes. */
struct guarded guarded_new(size_t most);

/* `length` bytes, flush with the end of the room or with its beginning. The rest of the room is
   filled with a pattern. */
uint8_t *guarded_place(struct guarded *room, size_t length, int at_end, uint8_t pattern);

/* Whether the room outside the placed bytes still has its pattern. */
int guarded_intact(const struct guarded *room, const uint8_t *placed, size_t length, uint8_t pattern);

#endif
