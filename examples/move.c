/* A directory sheet moved to nine columns, or back to six: prints the moved sheet or the refusal.
   usage: move there|back SHEET */
#include "dinghy.h"
#include "sheet.h"

#include <inttypes.h>
#include <string.h>

static uint8_t sheet[SHEET_MOST], out[SHEET_MOST];

int main(int count, char **arguments) {
    size_t length;
    int there = count == 3 && strcmp(arguments[1], "there") == 0;
    if (count != 3 || (!there && strcmp(arguments[1], "back") != 0)) {
        fprintf(stderr, "usage: move there|back SHEET\n");
        return 2;
    }
    if (!load(arguments[2], sheet, &length)) return 2;

    struct dinghy_reply reply = there ? dinghy_widen(sheet, length, out, sizeof out)
                                      : dinghy_narrow(sheet, length, out, sizeof out);
    if (reply.refusal != DINGHY_ANSWERED) {
        printf("refused %" PRIu64 "\n", reply.refusal);
        return 1;
    }
    return fwrite(out, 1, reply.length, stdout) == reply.length ? 0 : 2;
}
