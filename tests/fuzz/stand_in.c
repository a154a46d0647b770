/* Stands in for the library: every sheet is refused. With FAULT it does what the library must
   not do, so that the fuzzer can be seen to find it: 1 to 11 in the exchange's entry, 21 to 32 in
   the panel's, 41 to 54 in the move to nine columns, 61 to 73 in the move back. */
#include "dinghy.h"

#include <string.h>

#ifndef FAULT
#define FAULT 0
#endif

#define PANEL 20
#define WIDEN 40
#define NARROW 60
#define PANEL_ROOM 1024

/* An answer with six entries, if there is room. */
static struct dinghy_reply six(uint8_t *out, size_t out_len) {
    static const char head[] = "    30     3     0     0     0\n";
    static const char entry[] = "    32     1     0     0     1a\n";
    size_t length = strlen(head) + 6 * strlen(entry);
    struct dinghy_reply answered = {0, length}, refused = {31, 0};
    if (out_len < length) return refused;
    memcpy(out, head, strlen(head));
    for (size_t i = 0; i < 6; i++) memcpy(out + strlen(head) + i * strlen(entry), entry, strlen(entry));
    return answered;
}

static struct dinghy_reply serve(int fault, const uint8_t *dir, size_t dir_len, uint8_t *out, size_t out_len) {
    struct dinghy_reply reply = {dir_len > 65536 ? 1 : 2, 0};
    if (fault == 1 && out_len > 0) out[0] = 0;
    if (fault == 2 && out_len > 0) reply.length = 1;
    if (fault == 3) reply.refusal = 2 + (*(const volatile uint8_t *)(dir + dir_len) & 1);
    if (fault == 4) ((volatile uint8_t *)out)[out_len] = 0;
    if (fault == 5) reply.refusal = 7;
    if (fault == 6) reply.refusal = 0, reply.length = out_len + 1;
    if (fault == 7) reply.refusal = 0, reply.length = out_len;
    if (fault == 8 && dir_len > 0) *(uint8_t *)dir ^= 1;
    return reply;
}

struct dinghy_reply dinghy_serve_form(const uint8_t *dir, size_t dir_len, const uint8_t *perm,
                                      size_t perm_len, const uint8_t *req, size_t req_len,
                                      uint8_t *out, size_t out_len, bool wide) {
    (void)perm, (void)perm_len, (void)req, (void)req_len;
    struct dinghy_reply reply = serve(FAULT, dir, dir_len, out, out_len);
    /* In nine columns alone: an answer of six, and a byte written with a refusal. */
    if (FAULT == 10 && wide && out_len >= 31) {
        memcpy(out, "    30     3     1     0     0\n", 31);
        reply.refusal = 0, reply.length = 31;
    }
    if (FAULT == 11 && wide && out_len > 0) out[out_len - 1] = 0;
    if (FAULT == 9 && out_len > PANEL_ROOM) reply.refusal = 33;
    return reply;
}

struct dinghy_reply dinghy_serve_panel_form(const uint8_t *dir, size_t dir_len,
                                            const uint8_t *perm, size_t perm_len,
                                            const uint8_t *req, size_t req_len, uint8_t *out,
                                            size_t out_len, bool wide) {
    (void)perm, (void)perm_len, (void)req, (void)req_len, (void)wide;
    size_t most = FAULT == PANEL + 10 ? PANEL_ROOM - 1 : PANEL_ROOM;
    if (out_len > most && FAULT != PANEL + 9) {
        struct dinghy_reply reply = {33, 0};
        if (FAULT == PANEL + 11) out[0] = 0;
        return reply;
    }
    if (FAULT == PANEL + 12) return six(out, out_len);
    return serve(FAULT - PANEL, dir, dir_len, out, out_len);
}

struct dinghy_reply dinghy_serve(const uint8_t *dir, size_t dir_len, const uint8_t *perm,
                                 size_t perm_len, const uint8_t *req, size_t req_len, uint8_t *out,
                                 size_t out_len) {
    return dinghy_serve_form(dir, dir_len, perm, perm_len, req, req_len, out, out_len, false);
}

struct dinghy_reply dinghy_serve_panel(const uint8_t *dir, size_t dir_len, const uint8_t *perm,
                                       size_t perm_len, const uint8_t *req, size_t req_len,
                                       uint8_t *out, size_t out_len) {
    return dinghy_serve_panel_form(dir, dir_len, perm, perm_len, req, req_len, out, out_len, false);
}

static struct dinghy_reply move(int fault, const uint8_t *sheet, size_t length, uint8_t *out, size_t out_len) {
    struct dinghy_reply reply = serve(fault, sheet, length, out, out_len);
    if (fault == 9) reply.refusal = 31;
    if (fault == 10) reply.refusal = 22;
    if (fault == 11 && out_len >= length) { /* The sheet as it came. */
        if (length > 0) memcpy(out, sheet, length);
        reply.refusal = 0, reply.length = length;
    }
    if (fault == 12) reply.refusal = 0; /* Nothing, whatever came. */
    if (fault == 13 && out_len > 0) out[out_len - 1] = 0, reply.refusal = 36;
    return reply;
}

struct dinghy_reply dinghy_widen(const uint8_t *sheet, size_t length, uint8_t *out, size_t out_len) {
    struct dinghy_reply reply = move(FAULT - WIDEN, sheet, length, out, out_len);
    if (FAULT == WIDEN + 14) reply.refusal = 35;
    return reply;
}

struct dinghy_reply dinghy_narrow(const uint8_t *sheet, size_t length, uint8_t *out, size_t out_len) {
    return move(FAULT - NARROW, sheet, length, out, out_len);
}
