/* A sheet read from a file, for the example programs. */
#ifndef SHEET_H
#define SHEET_H

#include <stdint.h>
#include <stdio.h>

/* One byte more than a sheet may have, so that a longer file is refused as too long. */
#define SHEET_MOST 65537

/* Reads a file; 0 if that fails. */
static int load(const char *path, uint8_t *sheet, size_t *length) {
    FILE *file = fopen(path, "rb");
    int good = 0;
    if (file != NULL) {
        *length = fread(sheet, 1, SHEET_MOST, file);
        good = !ferror(file);
    }
    if (!good) perror(path);
    if (file != NULL) fclose(file);
    return good;
}

#endif
