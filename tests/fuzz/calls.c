#include "calls.h"

#include "guarded.h"

#include <stdio.h>
#include <string.h>

struct sheet sheets[4];
uint8_t answer[ROOM_MOST];
uint64_t failures;

/* Where the sheets and the buffer are placed for a call. */
static struct guarded places[4];

void fail(uint64_t run, const char *what) {
    failures++;
    if (failures > 20) return;
    printf("failed: run %llu: %s\n", (unsigned long long)run, what);
}

void calls_init(void) {
    for (int i = 0; i < 4; i++) sheet_init(&sheets[i], NARROW);
    for (int i = 0; i < 3; i++) places[i] = guarded_new(SHEET_MOST);
    places[3] = guarded_new(ROOM_MOST);
}

/* Of the requests in six columns every other one names the form. */
static struct dinghy_reply enter(struct call call, uint8_t *const *placed, uint8_t *out, size_t room) {
    const size_t d = sheets[0].length, p = sheets[1].length, q = sheets[2].length;
    switch (call.entry) {
    case EXCHANGE:
        if (!call.wide && room % 2 == 0) return dinghy_serve(placed[0], d, placed[1], p, placed[2], q, out, room);
        return dinghy_serve_form(placed[0], d, placed[1], p, placed[2], q, out, room, call.wide);
    case PANEL:
        if (!call.wide && room % 2 == 0) return dinghy_serve_panel(placed[0], d, placed[1], p, placed[2], q, out, room);
        return dinghy_serve_panel_form(placed[0], d, placed[1], p, placed[2], q, out, room, call.wide);
    case WIDEN:
        return dinghy_widen(placed[0], d, out, room);
    default:
        return dinghy_narrow(placed[0], d, out, room);
    }
}

struct dinghy_reply make_call(uint64_t run, struct call call, size_t room, int at_end, uint8_t pattern) {
    uint8_t *placed[3];
    int count = call.entry == EXCHANGE || call.entry == PANEL ? 3 : 1;
    for (int i = 0; i < count; i++) {
        placed[i] = guarded_place(&places[i], sheets[i].length, at_end, pattern);
        if (sheets[i].length > 0) memcpy(placed[i], sheets[i].bytes, sheets[i].length);
    }
    uint8_t *out = guarded_place(&places[3], room, at_end, pattern);
    memset(out, pattern, room);
    struct dinghy_reply reply = enter(call, placed, out, room);
    for (int i = 0; i < count; i++)
        if (memcmp(placed[i], sheets[i].bytes, sheets[i].length) != 0 ||
            !guarded_intact(&places[i], placed[i], sheets[i].length, pattern))
            fail(run, "a sheet was changed");
    if (!guarded_intact(&places[3], out, room, pattern)) fail(run, "bytes around the buffer");
    if (reply.refusal != 0 && reply.length != 0) fail(run, "a refusal with a length");
    if (reply.length > room) {
        fail(run, "an answer longer than the buffer");
        reply.length = 0;
    }
    for (size_t i = reply.length; i < room; i++)
        if (out[i] != pattern) {
            fail(run, "bytes beyond the answer");
            break;
        }
    memcpy(answer, out, reply.length);
    return reply;
}
