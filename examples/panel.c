/* A corridor panel's side: reads a directory, permissions and a request, lends a panel's buffer, and prints the answer or the refusal.
   usage: panel DIRECTORY PERMISSIONS REQUEST */
#include "dinghy.h"
#include "sheet.h"

#include <inttypes.h>

static uint8_t directory[SHEET_MOST], permissions[SHEET_MOST], request[SHEET_MOST], out[DINGHY_PANEL_ROOM];

int main(int count, char **arguments) {
    size_t d, p, q;
    if (count != 4) {
        fprintf(stderr, "usage: panel DIRECTORY PERMISSIONS REQUEST\n");
        return 2;
    }
    if (!load(arguments[1], directory, &d) || !load(arguments[2], permissions, &p) ||
        !load(arguments[3], request, &q))
        return 2;

    struct dinghy_reply reply =
        dinghy_serve_panel(directory, d, permissions, p, request, q, out, sizeof out);
    if (reply.refusal == DINGHY_BUFFER_TOO_SHORT) {
        /* A panel can lend no more: it has to ask for less, by a smaller limit or fewer types. */
        printf("ask for less\n");
        return 1;
    }
    if (reply.refusal != DINGHY_ANSWERED) {
        printf("refused %" PRIu64 "\n", reply.refusal);
        return 1;
    }
    return fwrite(out, 1, reply.length, stdout) == reply.length ? 0 : 2;
}
