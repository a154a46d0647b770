/* Sheets in growing memory, and the samples that the damage starts from. */
#ifndef SHEET_H
#define SHEET_H

#include <stddef.h>
#include <stdint.h>

/* No sheet grows beyond this. */
#define SHEET_MOST 131072

/* Columns of a number in the two forms. */
#define NARROW 6
#define WIDE 9

struct sheet {
    uint8_t *bytes;
    size_t length;
    /* Columns of a number. */
    size_t width;
};

/* Empty. */
void sheet_init(struct sheet *sheet, size_t width);
/* The form too. */
void sheet_copy(struct sheet *to, const struct sheet *from);
/* Replaces `removed` bytes at `place` by others, as far as there is room. */
void sheet_splice(struct sheet *sheet, size_t place, size_t removed, const uint8_t *bytes,
                  size_t added);
/* Bytes of a line before its value. */
size_t sheet_head(const struct sheet *sheet);
/* Appends a line in form. */
void sheet_line(struct sheet *sheet, unsigned kind, unsigned a, unsigned b, unsigned c,
                const char *bytes);

#define DIRECTORIES 10
#define PERMISSIONS 5
#define REQUESTS 15

/* Those of one form. */
struct samples {
    struct sheet directories[DIRECTORIES];
    struct sheet permissions[PERMISSIONS];
    struct sheet requests[REQUESTS];
};

void samples_init(struct samples *samples, size_t width);

#endif
