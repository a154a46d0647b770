/* Feeds the library's entries and moves sheets of any bytes, in either form, and watches what they do with the lent buffer.
   SEED and RUNS (100,000) come from the environment. */
#include "calls.h"
#include "damage.h"
#include "dinghy.h"
#include "random.h"
#include "sheet.h"

#include <stdio.h>
#include <stdlib.h>
#include <string.h>

#define PANEL_ROOM 1024
#define PANEL_ENTRIES 5

/* Six columns, then nine. */
static const size_t widths[] = {NARROW, WIDE};
static struct samples samples[2];

/* Of a request; then of a move. */
static const uint64_t refusals[] = {1, 2, 3, 4, 5, 6, 11, 12, 13, 14, 21, 22, 23, 24, 31, 33, 0};
static const uint64_t move_refusals[] = {1, 2, 3, 4, 5, 6, 35, 36, 0};
static uint64_t met[100], met_by_moves[100];

static uint64_t number_from_environment(const char *name, uint64_t otherwise) {
    const char *text = getenv(name);
    return text == NULL ? otherwise : strtoull(text, NULL, 10);
}

/* Counts a refusal of the list, or an answer. */
static void count(uint64_t run, const uint64_t *list, uint64_t *counts, uint64_t refusal) {
    while (*list != 0 && *list != refusal) list++;
    if (refusal < 100 && *list == refusal)
        counts[refusal]++;
    else
        fail(run, "a refusal of no known number");
}

static void show(const char *what, const uint64_t *list, const uint64_t *counts) {
    printf("%s %llu", what, (unsigned long long)counts[0]);
    for (; *list != 0; list++) printf(", refused %llu: %llu", (unsigned long long)*list, (unsigned long long)counts[*list]);
    printf("\n");
}

/* Lines of a width in form. Those of two kinds are counted. */
static int in_form(size_t length, size_t width, unsigned one, unsigned other, size_t *counted) {
    size_t place = 0, head = 5 * width;
    *counted = 0;
    while (place < length) {
        unsigned numbers[5] = {0};
        if (length - place <= head) return 0;
        for (size_t i = 0; i < head; i++) {
            uint8_t byte = answer[place + i];
            int blank = byte == ' ' && i % width != width - 1;
            if (!blank && (byte < '0' || byte > '9')) return 0;
            if (!blank) numbers[i / width] = numbers[i / width] * 10 + (unsigned)(byte - '0');
        }
        size_t value = numbers[4];
        if (value > 64 || length - place <= head + value || answer[place + head + value] != '\n') return 0;
        *counted += numbers[0] == one || numbers[0] == other;
        place += head + value + 1;
    }
    return 1;
}

/* The first line of an answer is K 30. */
static int begins_with_30(size_t length, size_t width) {
    return length > 5 * width && memcmp(answer + width - 3, " 30", 3) == 0;
}

/* A panel's is seldom too long. */
static size_t some_room(int panel) {
    static const size_t rooms[] = {0, 30, 31, 32, 45, 46, 47, 62, 92, 1000, 1024, 1025, 4096, 65536, ROOM_MOST};
    size_t room = random_below(4) == 0 ? PICK(rooms) : random_below(2000);
    int panels = panel && random_below(8) != 0;
    return panels && room > PANEL_ROOM ? random_below(PANEL_ROOM + 1) : room;
}

static struct sheet *sample(size_t form, size_t which, size_t place) {
    struct sheet *lists[] = {samples[form].directories, samples[form].permissions, samples[form].requests};
    return &lists[which][place];
}

static void choose_sheets(size_t form) {
    static const size_t counts[] = {DIRECTORIES, PERMISSIONS, REQUESTS};
    for (size_t i = 0; i < 3; i++) {
        /* The small samples more often than the large; seldom one of the other form. */
        size_t place = random_below(counts[i]);
        size_t of = random_below(30) == 0 ? 1 - form : form;
        if (sample(of, i, place)->length > 5000 && random_below(8) != 0) place = 1;
        sheet_copy(&sheets[i], sample(of, i, place));
    }
    for (size_t changes = random_below(4); changes > 0; changes--) {
        size_t which = random_below(3);
        size_t from = random_below(3);
        damage(&sheets[which], sample(form, from, random_below(counts[from])));
    }
}

static void run_entry(uint64_t run, size_t form, int panel) {
    struct call call = {panel ? PANEL : EXCHANGE, form == 1};
    size_t room = some_room(panel);
    size_t listed;
    int at_end = random_below(4) != 0;
    struct dinghy_reply first = make_call(run, call, room, at_end, (uint8_t)(0x5a + run % 3));
    count(run, refusals, met, first.refusal);
    if ((first.refusal == 33) != (panel && room > PANEL_ROOM)) fail(run, "33 is for a panel's long buffer");
    if (first.refusal != 0) return;
    if (!begins_with_30(first.length, widths[form]) || !in_form(first.length, widths[form], 32, 33, &listed))
        fail(run, "an answer not in form");
    else if (panel && listed > PANEL_ENTRIES)
        fail(run, "too many entries for a panel");
    if (random_below(4) != 0) return;
    /* The same again in a buffer of just that length with other bytes in it; then one short. */
    static uint8_t before[ROOM_MOST];
    memcpy(before, answer, first.length);
    struct dinghy_reply again = make_call(run, call, first.length, at_end, 0xc3);
    if (again.refusal != 0 || again.length != first.length || memcmp(before, answer, again.length) != 0)
        fail(run, "another answer to the same request");
    struct dinghy_reply shorter = make_call(run, call, first.length - 1, at_end, 0x3c);
    if (shorter.refusal != 31) fail(run, "no refusal of a buffer one byte short");
}

/* Moves the directory of a form to the other form, and back. */
static void run_move(uint64_t run, size_t form) {
    struct call there = {form == 0 ? WIDEN : NARROWED, 0}, back = {form == 0 ? NARROWED : WIDEN, 0};
    size_t most = sheets[0].length + 15 * (sheets[0].length / 31 + 1);
    size_t room = random_below(8) == 0 ? some_room(0) : random_below(4) == 0 ? random_below(most + 1) : most;
    if (room > ROOM_MOST) room = ROOM_MOST;
    size_t lines;
    int at_end = random_below(4) != 0;
    struct dinghy_reply moved = make_call(run, there, room, at_end, (uint8_t)(0x69 + run % 3));
    count(run, move_refusals, met_by_moves, moved.refusal);
    if (moved.refusal == 35 && form == 0) fail(run, "35 is for the way back");
    if (moved.refusal == 36 && room == most && most <= 65536) fail(run, "36 though it would fit");
    if (moved.refusal != 0) return;
    if (moved.length > 65536) fail(run, "a moved sheet of more than 65,536 bytes");
    if (!in_form(moved.length, widths[1 - form], 1, 2, &lines)) fail(run, "a moved sheet not in form");
    /* One byte short; then back. */
    if (moved.length > 0) {
        static uint8_t kept[ROOM_MOST];
        memcpy(kept, answer, moved.length);
        struct dinghy_reply shorter = make_call(run, there, moved.length - 1, at_end, 0x3c);
        if (shorter.refusal != 36) fail(run, "no refusal of a buffer one byte short for a move");
        memcpy(answer, kept, moved.length);
    }
    struct sheet *from = &sheets[0], *to = &sheets[3];
    sheet_copy(to, from);
    from->length = 0;
    sheet_splice(from, 0, 0, answer, moved.length);
    from->width = widths[1 - form];
    struct dinghy_reply again = make_call(run, back, to->length, at_end, 0xc3);
    if (again.refusal != 0 || again.length != to->length || memcmp(answer, to->bytes, to->length) != 0)
        fail(run, "another sheet there and back");
    sheet_copy(from, to);
}

static void run_once(uint64_t run) {
    size_t form = random_below(2);
    choose_sheets(form);
    /* Seldom asked in the other form. */
    if (random_below(30) == 0) form = 1 - form;
    for (int panel = 0; panel <= 1; panel++) run_entry(run, form, panel);
    if (random_below(2) == 0) run_move(run, form);
}

int main(void) {
    uint64_t seed = number_from_environment("SEED", 20240601);
    uint64_t runs = number_from_environment("RUNS", 100000);
    printf("seed %llu\n", (unsigned long long)seed);
    random_seed(seed);
    for (size_t form = 0; form < 2; form++) samples_init(&samples[form], widths[form]);
    calls_init();
    for (uint64_t run = 1; run <= runs; run++) run_once(run);
    show("answered", refusals, met);
    show("moved", move_refusals, met_by_moves);
    printf("fuzz: %d checks passed, %d failed\n", failures == 0, failures != 0);
    printf("fuzz: %llu cases, %llu failed\n", (unsigned long long)runs, (unsigned long long)failures);
    return failures == 0 ? 0 : 1;
}
