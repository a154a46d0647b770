/* The hotel directory server: three sheets and a lent buffer in, one reply out, for the exchange and for corridor panels; and a directory sheet
   moved to nine columns and back. Link with libdinghy.a. */
#ifndef DINGHY_H
#define DINGHY_H

#include <stdbool.h>
#include <stddef.h>
#include <stdint.h>

#ifdef __cplusplus
extern "C" {
#endif

/* Either refusal is 0 and the answer is the first length bytes of the buffer, or refusal says why there is none and length is 0. The answer is a
   sheet. Column B of its first line, K 30, is the outcome: 0 a result, 1 noSuchObject, 2 insufficientAccessRights, 3 noSuchAttributeOrValue,
   4 invalidAttributeSyntax, 5 aliasProblem (the name leads through more than eight aliases, as in a loop). docs/SHEETS.md has every kind of line. */
struct dinghy_reply {
    uint64_t refusal;
    uint64_t length;
};

/* Refusals, by who has to mend what. A panel's buffer comes first, then directory, permissions, request, and the answer's length; within a
   sheet its length, then the first faulty line from the top, and on that line the lowest number. A move gives those of the directory, then its own. */
enum dinghy_refusal {
    DINGHY_ANSWERED = 0,

    /* the directory */
    DINGHY_DIRECTORY_TOO_LONG = 1, /* more than 65,536 bytes */
    DINGHY_DIRECTORY_FORM = 2,     /* a line not in form, or a kind or column not allowed */
    DINGHY_DIRECTORY_ORDER = 3,    /* a line out of order, missing, or over a count; an alias without its target (K 36), or with a child */
    DINGHY_DIRECTORY_VALUE = 4,    /* an unknown type, or a value outside its syntax, in an alias's target too */
    DINGHY_DIRECTORY_TWICE = 5,    /* siblings of one name, or one value twice in a type */
    DINGHY_DIRECTORY_NAMING = 6,   /* an entry does not hold its naming value */

    /* the permissions, as 1 to 4 */
    DINGHY_PERMISSIONS_TOO_LONG = 11,
    DINGHY_PERMISSIONS_FORM = 12,
    DINGHY_PERMISSIONS_ORDER = 13,
    DINGHY_PERMISSIONS_VALUE = 14,

    /* the request, as 1 to 3 */
    DINGHY_REQUEST_TOO_LONG = 21, /* more than 8,192 bytes */
    DINGHY_REQUEST_FORM = 22,
    DINGHY_REQUEST_ORDER = 23,
    DINGHY_REQUEST_NO_ORDER = 24, /* a search in the order of a type that is unknown or has none */

    /* the calling program */
    DINGHY_BUFFER_TOO_SHORT = 31,      /* the answer is longer than the lent buffer */
    DINGHY_PANEL_BUFFER_TOO_LONG = 33, /* a panel lends more than 1,024 bytes; no sheet was judged */

    /* a move */
    DINGHY_TYPE_TOO_HIGH = 35,  /* a type above 999 on the way back to six columns */
    DINGHY_MOVED_TOO_LONG = 36  /* the moved sheet is longer than the lent buffer, or than 65,536 bytes */
};

/* For the exchange. Answers one request over one directory under one permission sheet, and writes the answer at the front of out.
   With a refusal, and beyond the answer's length, out is unchanged; the sheets are only read.

   The caller sees to it that
   - each pointer is valid for its length, and no pointer is null: an empty sheet or buffer may be any pointer, as "", with length 0;
   - out overlaps none of the sheets, and nobody changes a sheet or touches out during the call.

   Sheets of any bytes and any length are allowed. The function keeps no state and allocates nothing, so it may be called from several
   threads at a time. A thread that calls it needs 256 KB of stack: the call uses some 190,000 bytes (measured, with a filter at depth 16). */
struct dinghy_reply dinghy_serve(const uint8_t *directory, size_t directory_length,
                                 const uint8_t *permissions, size_t permissions_length,
                                 const uint8_t *request, size_t request_length,
                                 uint8_t *out, size_t out_length);

/* The most that a panel lends. */
#define DINGHY_PANEL_ROOM 1024

/* For a corridor panel: as dinghy_serve, with the same duties of the caller, but a list or search gives at most five entries (C of line 30 is 1
   where there are more, as with a request's own limit), and an out_length above DINGHY_PANEL_ROOM gives DINGHY_PANEL_BUFFER_TOO_LONG. */
struct dinghy_reply dinghy_serve_panel(const uint8_t *directory, size_t directory_length,
                                       const uint8_t *permissions, size_t permissions_length,
                                       const uint8_t *request, size_t request_length,
                                       uint8_t *out, size_t out_length);

/* The same two, for a caller that names the form of its sheets. With wide, each number has nine columns and types go to 9,999,999, in the directory,
   the permissions, the request and the answer alike; without it, six columns and 999, as above. Sizes in bytes are the same in both forms. */
struct dinghy_reply dinghy_serve_form(const uint8_t *directory, size_t directory_length,
                                      const uint8_t *permissions, size_t permissions_length,
                                      const uint8_t *request, size_t request_length,
                                      uint8_t *out, size_t out_length, bool wide);

struct dinghy_reply dinghy_serve_panel_form(const uint8_t *directory, size_t directory_length,
                                            const uint8_t *permissions, size_t permissions_length,
                                            const uint8_t *request, size_t request_length,
                                            uint8_t *out, size_t out_length, bool wide);

/* A directory sheet moved from six columns to nine, and back: the moved sheet stands at the front of out, and its length is in the reply. The duties of
   the caller, and what holds of out, are those of dinghy_serve. There and back, if neither is refused, gives the same bytes. A sheet of six columns
   that has n lines gets 15 n bytes longer. */
struct dinghy_reply dinghy_widen(const uint8_t *sheet, size_t sheet_length, uint8_t *out, size_t out_length);

struct dinghy_reply dinghy_narrow(const uint8_t *sheet, size_t sheet_length, uint8_t *out, size_t out_length);

#ifdef __cplusplus
}
#endif

#endif
