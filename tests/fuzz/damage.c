#include "damage.h"

#include "random.h"

#include <stdio.h>
#include <string.h>

/* The length of the line at a place, or of what is left if it is no line. */
static size_t line_length(const struct sheet *sheet, size_t place) {
    size_t left = sheet->length - place;
    size_t head = sheet_head(sheet);
    if (left <= head) return left;
    size_t value = 0;
    for (size_t i = head - sheet->width; i < head; i++) {
        uint8_t byte = sheet->bytes[place + i];
        if (byte >= '0' && byte <= '9') value = value * 10 + (size_t)(byte - '0');
    }
    return left < head + value + 1 ? left : head + value + 1;
}

/* The start of a random line. */
static size_t some_line(const struct sheet *sheet) {
    size_t lines = 0;
    for (size_t place = 0; place < sheet->length; place += line_length(sheet, place)) lines++;
    size_t wanted = lines == 0 ? 0 : random_below(lines);
    size_t place = 0;
    while (wanted-- > 0) place += line_length(sheet, place);
    return place;
}

static void write_column(struct sheet *sheet, size_t place) {
    static const unsigned numbers[] = {0,  1,  2,   3,   4,   5,   7,   8,   9,   10,  11,    12,
                                       15, 16, 17,  20,  22,  27,  28,  63,  64,  65,  127,   128,
                                       255, 256, 257, 999, 1000, 65535, 99999, 100000, 999999,
                                       1000000, 9999999, 10000000, 999999999};
    uint8_t text[16];
    size_t width = sheet->width;
    unsigned number = PICK(numbers);
    snprintf((char *)text, sizeof text, "%*u", (int)width, width == NARROW ? number % 1000000 : number);
    if (place + sheet_head(sheet) <= sheet->length)
        memcpy(sheet->bytes + place + width * random_below(5), text, width);
}

static void damage_line(struct sheet *sheet, const struct sheet *other) {
    size_t place = some_line(sheet);
    size_t length = line_length(sheet, place);
    size_t head = sheet_head(sheet);
    size_t from = some_line(other);
    uint8_t kept[256];
    size_t borrowed = line_length(other, from);
    if (borrowed > sizeof kept) borrowed = sizeof kept;
    if (borrowed > 0) memcpy(kept, other->bytes + from, borrowed);
    switch (random_below(7)) {
    case 0: /* A line less. */
        sheet_splice(sheet, place, length, NULL, 0);
        break;
    case 1: /* A line of another sheet. */
        sheet_splice(sheet, place, 0, kept, borrowed);
        break;
    case 2: /* A line twice. */
        sheet_splice(sheet, place, 0, sheet->bytes + place, length);
        break;
    case 3: /* A line replaced. */
        sheet_splice(sheet, place, length, kept, borrowed);
        break;
    case 4: /* The value changed. */
        if (length > head + 1)
            sheet->bytes[place + head + random_below(length - head - 1)] = (uint8_t)random_word();
        break;
    default:
        write_column(sheet, place);
    }
}

static void damage_bytes(struct sheet *sheet) {
    static const uint8_t bytes[] = " 0019-+\n\r\t\0~aA\x7f\xff";
    uint8_t byte = random_below(3) == 0 ? (uint8_t)random_word() : PICK(bytes);
    size_t place = random_below(sheet->length + 1);
    size_t left = sheet->length - place;
    switch (random_below(6)) {
    case 0:
        sheet_splice(sheet, place, 0, &byte, 1);
        break;
    case 1:
        sheet_splice(sheet, place, left > 0, NULL, 0);
        break;
    case 2:
        sheet->length = place;
        break;
    case 3:
        if (left > 0) sheet->bytes[place] ^= (uint8_t)(1u << random_below(8));
        break;
    case 4: /* Some bytes gone. */
        sheet_splice(sheet, place, left == 0 ? 0 : random_below(left < 64 ? left : 64), NULL, 0);
        break;
    default:
        if (left > 0) sheet->bytes[place] = byte;
    }
}

static void any_bytes(struct sheet *sheet) {
    static const size_t lengths[] = {0, 1, 29, 30, 31, 32, 45, 46, 47, 100, 1000, 8191, 8192, 8193};
    sheet->length = PICK(lengths);
    for (size_t i = 0; i < sheet->length; i++) sheet->bytes[i] = (uint8_t)random_word();
}

static void lengthen(struct sheet *sheet) {
    static const size_t lengths[] = {8191, 8192, 8193, 65535, 65536, 65537, SHEET_MOST};
    size_t length = PICK(lengths);
    uint8_t byte = random_below(2) == 0 ? '\n' : ' ';
    if (length > sheet->length) memset(sheet->bytes + sheet->length, byte, length - sheet->length);
    sheet->length = length;
}

void damage(struct sheet *sheet, const struct sheet *other) {
    size_t choice = random_below(100);
    if (choice < 60)
        damage_line(sheet, other);
    else if (choice < 94)
        damage_bytes(sheet);
    else if (choice < 97)
        any_bytes(sheet);
    else
        lengthen(sheet);
}
