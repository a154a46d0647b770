/* Calls of the library between guard pages, with everything that a call must keep. */
#ifndef CALLS_H
#define CALLS_H

#include "dinghy.h"
#include "sheet.h"

#define ROOM_MOST 262144

enum entry { EXCHANGE, PANEL, WIDEN, NARROWED };

struct call {
    enum entry entry;
    /* The form of a request. */
    int wide;
};

/* Directory, permissions and request; a move takes the first alone. The fourth is spare. */
extern struct sheet sheets[4];
/* What the last call wrote, as far as its length. */
extern uint8_t answer[ROOM_MOST];
extern uint64_t failures;

void fail(uint64_t run, const char *what);
void calls_init(void);
/* One call with the sheets and a buffer filled with a pattern. */
struct dinghy_reply make_call(uint64_t run, struct call call, size_t room, int at_end, uint8_t pattern);

#endif
