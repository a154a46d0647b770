#include "sheet.h"

#include <stdio.h>
#include <stdlib.h>
#include <string.h>

void sheet_init(struct sheet *sheet, size_t width) {
    sheet->bytes = malloc(SHEET_MOST);
    sheet->length = 0;
    sheet->width = width;
    if (sheet->bytes == NULL) exit(2);
}

void sheet_copy(struct sheet *to, const struct sheet *from) {
    memcpy(to->bytes, from->bytes, from->length);
    to->length = from->length;
    to->width = from->width;
}

void sheet_splice(struct sheet *sheet, size_t place, size_t removed, const uint8_t *bytes,
                  size_t added) {
    size_t after = place + removed;
    if (sheet->length - removed + added > SHEET_MOST) return;
    memmove(sheet->bytes + place + added, sheet->bytes + after, sheet->length - after);
    if (added > 0) memmove(sheet->bytes + place, bytes, added);
    sheet->length += added - removed;
}

size_t sheet_head(const struct sheet *sheet) {
    return 5 * sheet->width;
}

void sheet_line(struct sheet *sheet, unsigned kind, unsigned a, unsigned b, unsigned c,
                const char *bytes) {
    uint8_t line[128];
    size_t length = strlen(bytes);
    int w = (int)sheet->width;
    int head = snprintf((char *)line, sizeof line, "%*u%*u%*u%*u%*zu", w, kind, w, a, w, b, w, c, w, length);
    memcpy(line + head, bytes, length);
    line[head + length] = '\n';
    sheet_splice(sheet, sheet->length, 0, line, (size_t)head + length + 1);
}

static void three_types(struct sheet *dir) {
    sheet_line(dir, 1, 1, 0, 0, "");
    sheet_line(dir, 1, 2, 1, 0, "");
    sheet_line(dir, 1, 3, 2, 0, "");
}

static void person(struct sheet *dir, unsigned parent, const char *name, const char *number) {
    sheet_line(dir, 2, parent, 2, 0, name);
    sheet_line(dir, 3, 1, 0, 0, "o");
    sheet_line(dir, 3, 2, 0, 0, name);
    sheet_line(dir, 3, 2, 0, 0, " ba  nana ");
    sheet_line(dir, 3, 3, 0, 0, number);
}

/* An alias to a name whose parts are all alike. */
static void alias(struct sheet *dir, const char *name, unsigned parts, const char *target) {
    sheet_line(dir, 2, 0, 2, 1, name);
    sheet_line(dir, 3, 2, 0, 0, name);
    sheet_line(dir, 36, 0, parts, 0, "");
    for (unsigned i = 0; i < parts; i++) sheet_line(dir, 9, 2, 0, 0, target);
}

static void directories_init(struct sheet *dir, size_t width) {
    for (int i = 0; i < DIRECTORIES; i++) sheet_init(&dir[i], width);
    /* 0 is empty. */
    three_types(&dir[1]);
    person(&dir[1], 0, "Ann", "-7");
    person(&dir[1], 0, "Bob", "12");
    person(&dir[1], 1, "Cid", "9223372036854775807");
    person(&dir[1], 3, "Dan", "-9223372036854775808");
    three_types(&dir[2]);
    for (unsigned depth = 0; depth < 8; depth++) {
        person(&dir[2], depth, "Ann", "0");
        if (depth < 7) continue;
        person(&dir[2], depth, "Bob", "1");
    }
    three_types(&dir[3]);
    for (unsigned number = 1; number <= 256; number++) {
        char name[8];
        snprintf(name, sizeof name, "%u", number);
        sheet_line(&dir[3], 2, number / 40, 3, 0, name);
        sheet_line(&dir[3], 3, 3, 0, 0, name);
    }
    for (unsigned number = 1; number <= 64; number++) sheet_line(&dir[4], 1, number * 15, number % 3, 0, "");
    sheet_line(&dir[4], 2, 0, 15, 0, "a");
    for (unsigned number = 1; number <= 64; number++) sheet_line(&dir[4], 3, number * 15, 0, 0, number == 1 ? "a" : "1");
    three_types(&dir[5]);
    sheet_line(&dir[5], 2, 0, 2, 0, "Ann");
    for (unsigned number = 0; dir[5].length < 65400; number++) {
        char value[65];
        snprintf(value, sizeof value, "%064u", number);
        sheet_line(&dir[5], 3, 1, 0, 0, value);
    }
    sheet_line(&dir[5], 3, 2, 0, 0, "ann  ");
    /* The highest types of the form. */
    unsigned top = width == WIDE ? 9999999 : 999;
    sheet_line(&dir[6], 1, 999, 1, 0, "");
    if (width == WIDE) sheet_line(&dir[6], 1, 1000, 2, 0, "");
    if (width == WIDE) sheet_line(&dir[6], 1, top, 1, 0, "");
    sheet_line(&dir[6], 2, 0, top, 0, "Ann");
    sheet_line(&dir[6], 3, top, 0, 0, "ann");
    /* Aliases to an entry, to themselves, one to the next. */
    three_types(&dir[8]);
    alias(&dir[8], "Ann", 1, "bob");
    person(&dir[8], 0, "Bob", "7");
    person(&dir[8], 2, "Cid", "8");
    person(&dir[8], 3, "Cid", "9");
    alias(&dir[8], "Nobody", 8, "Cid");
    three_types(&dir[9]);
    alias(&dir[9], "Ann", 1, "1");
    for (unsigned number = 1; number <= 9; number++) {
        char name[8], next[8];
        snprintf(name, sizeof name, "%u", number);
        snprintf(next, sizeof next, "%u", number + 1);
        alias(&dir[9], name, 1 + number % 2, next);
    }
    alias(&dir[9], "10", 1, "10");
    /* Of 65,536 bytes in nine columns. */
    three_types(&dir[7]);
    sheet_line(&dir[7], 2, 0, 1, 0, "0");
    sheet_line(&dir[7], 3, 1, 0, 0, "0");
    size_t line = sheet_head(&dir[7]) + 1 + 15 * (width == NARROW);
    size_t length = 5 * line + 2;
    for (unsigned number = 1; length + line < 65536; number++) {
        char value[65];
        size_t left = 65536 - length - line;
        int digits = left > 64 + line + 8 ? 64 : (int)(left > 64 ? left - line - 10 : left);
        snprintf(value, sizeof value, "%0*u", digits, number);
        sheet_line(&dir[7], 3, 1, 0, 0, value);
        length += line + (size_t)digits;
    }
}

static void item(struct sheet *perm, unsigned precedence, unsigned grants, unsigned what,
                 unsigned type, const char *value, unsigned mask) {
    sheet_line(perm, 4, precedence, 0, grants, "");
    sheet_line(perm, 5, 1, 0, 0, "");
    sheet_line(perm, 6, 0, 0, 0, "");
    sheet_line(perm, 7, what, type, 0, value);
    sheet_line(perm, 8, mask, 0, 0, "");
}

static void named_item(struct sheet *perm, unsigned who, unsigned parts, unsigned grants) {
    sheet_line(perm, 4, 1, grants, grants, "");
    sheet_line(perm, 5, 0, 1, 0, "");
    sheet_line(perm, 9, 2, 0, 0, "ann");
    sheet_line(perm, 6, who, parts, 0, "");
    for (unsigned i = 0; i < parts; i++) sheet_line(perm, 9, 2, 0, 0, "Ann");
    sheet_line(perm, 7, 0, 0, 0, "");
    sheet_line(perm, 8, 9, 0, 0, "");
}

static void permissions_init(struct sheet *perm, size_t width) {
    for (int i = 0; i < PERMISSIONS; i++) sheet_init(&perm[i], width);
    /* 0 is empty. */
    item(&perm[1], 0, 1, 0, 0, "", 63);
    item(&perm[1], 0, 1, 2, 0, "", 63);
    sheet_copy(&perm[2], &perm[1]);
    item(&perm[2], 1, 0, 3, 3, "", 32);
    item(&perm[2], 1, 0, 4, 2, "", 1);
    item(&perm[2], 1, 1, 5, 2, "ANN", 17);
    item(&perm[2], 1, 0, 1, 0, "", 8);
    sheet_copy(&perm[3], &perm[1]);
    named_item(&perm[3], 1, 0, 0);
    named_item(&perm[3], 1, 2, 1);
    named_item(&perm[3], 2, 0, 0);
    named_item(&perm[3], 3, 1, 1);
    named_item(&perm[3], 3, 8, 0);
    for (unsigned i = 0; i < 256; i++) item(&perm[4], i, i % 3 != 0, i % 3, 0, "", 1 + i % 63);
}

static void base(struct sheet *req, unsigned operation, unsigned parts, unsigned limit) {
    /* The first edition where there is a limit. */
    sheet_line(req, 10, 1, 1, limit > 0, "");
    sheet_line(req, 9, 2, 0, 0, "Ann");
    sheet_line(req, 11, operation, parts, limit, "");
    for (unsigned i = 0; i < parts; i++) sheet_line(req, 9, 2, 0, 0, i == 0 ? "ann" : "Cid");
}

static void search(struct sheet *req, unsigned parts, unsigned limit) {
    base(req, 4, parts, limit);
    sheet_line(req, 12, 0, 0, 1, "");
    sheet_line(req, 15, 2, 0, 0, "");
}

static void requests_init(struct sheet *req, size_t width) {
    for (int i = 0; i < REQUESTS; i++) sheet_init(&req[i], width);
    base(&req[0], 1, 1, 0);
    sheet_line(&req[0], 12, 0, 0, 1, "");
    base(&req[1], 1, 2, 0);
    sheet_line(&req[1], 12, 1, 2, 0, "");
    sheet_line(&req[1], 13, 2, 0, 0, "");
    sheet_line(&req[1], 13, 3, 0, 0, "");
    base(&req[2], 2, 1, 0);
    sheet_line(&req[2], 14, 3, 0, 0, "-7");
    base(&req[3], 2, 8, 0);
    sheet_line(&req[3], 14, 2, 0, 0, "x");
    base(&req[4], 3, 0, 0);
    base(&req[5], 3, 1, 1);
    search(&req[6], 0, 0);
    sheet_line(&req[6], 26, 3, 0, 0, "");
    search(&req[7], 1, 2);
    sheet_line(&req[7], 20, 3, 0, 0, "");
    sheet_line(&req[7], 22, 0, 0, 0, "");
    sheet_line(&req[7], 23, 3, 0, 0, "12");
    sheet_line(&req[7], 21, 2, 0, 0, "");
    sheet_line(&req[7], 24, 3, 0, 0, "-10");
    sheet_line(&req[7], 25, 2, 0, 0, "b");
    sheet_line(&req[7], 26, 1, 0, 0, "");
    search(&req[8], 0, 0);
    sheet_line(&req[8], 27, 2, 3, 0, "");
    sheet_line(&req[8], 28, 0, 0, 0, "ba  ");
    sheet_line(&req[8], 28, 1, 0, 0, "N");
    sheet_line(&req[8], 28, 2, 0, 0, "a");
    search(&req[9], 0, 0);
    for (int i = 0; i < 15; i++) sheet_line(&req[9], 22, 0, 0, 0, "");
    sheet_line(&req[9], 26, 9, 0, 0, "");
    search(&req[10], 0, 3);
    sheet_line(&req[10], 21, 127, 0, 0, "");
    for (int i = 0; i < 127; i++) sheet_line(&req[10], 23, 1, 0, 0, "o");
    search(&req[11], 0, 0);
    sheet_line(&req[11], 20, 14, 0, 0, "");
    for (int i = 0; i < 14; i++) {
        sheet_line(&req[11], 27, 2, 8, 0, "");
        for (int piece = 0; piece < 8; piece++) sheet_line(&req[11], 28, 1, 0, 0, "a");
    }
}

/* By text rising, by integers falling, and by octets, which have no order. */
static void ordered_init(struct sheet *req) {
    for (unsigned i = 0; i < 3; i++) {
        base(&req[i], 4, 0, i == 1 ? 3 : 0);
        sheet_line(&req[i], 12, 0, 0, i != 1, "");
        sheet_line(&req[i], 16, i == 2 ? 1 : 2 + i, i == 1, 0, "");
        sheet_line(&req[i], 15, 2, 0, 0, "");
        sheet_line(&req[i], 20, 0, 0, 0, "");
    }
}

void samples_init(struct samples *samples, size_t width) {
    directories_init(samples->directories, width);
    permissions_init(samples->permissions, width);
    requests_init(samples->requests, width);
    ordered_init(samples->requests + REQUESTS - 3);
}
