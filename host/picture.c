/* A load cell's run as a picture of few lines, a bar each. Every push shown is the library's; only the bars are drawn here. */
#include "picture.h"

#include <inttypes.h>

#include "records.h"
#include "rembilung.h"

static const char longest_bar[] = "##################################################";

enum { BAR_MOST = sizeof longest_bar - 1 };

/* For the last of so many records the library gives the greatest push among them all. */
static int greatest_push(const uint8_t *records, size_t count, uint32_t *push) {
    uint8_t pushes[PUSH_BYTES * REMBILUNG_CELL_W_MOST];
    if (rembilung_cells(records, REMBILUNG_CELL_RECORD * count, (uint32_t)count, pushes, sizeof pushes) != PUSH_BYTES * count)
        return 0;
    *push = low_first(pushes + PUSH_BYTES * (count - 1));
    return 1;
}

static size_t records_in(const Picture *picture, size_t line) {
    size_t left = picture->count - line * picture->of_line;
    return left < picture->of_line ? left : picture->of_line;
}

/* The lines' pushes are given to the library as records of their own, so that the greatest of all is its answer too. */
static int find_longest(Picture *picture) {
    uint8_t records[REMBILUNG_CELL_RECORD * PICTURE_LINES_MOST];
    for (size_t line = 0; line < picture->lines; line++)
        put_push(records + REMBILUNG_CELL_RECORD * line, picture->pushes[line]);
    picture->longest = 0;
    return picture->lines == 0 || greatest_push(records, picture->lines, &picture->longest);
}

int make_picture(Picture *picture, const uint8_t *records, size_t count, uint32_t w) {
    size_t room = (size_t)PICTURE_LINES_MOST * w;
    int known = 1;
    /* The library refuses such a run. */
    if (w == 0 || w > REMBILUNG_CELL_W_MOST || count > REMBILUNG_CELL_RECORDS_MOST)
        return 0;
    picture->count = count;
    picture->of_line = count == 0 ? w : w * (uint32_t)((count + room - 1) / room);
    picture->lines = (count + picture->of_line - 1) / picture->of_line;
    for (size_t line = 0; known && line < picture->lines; line++)
        known = greatest_push(records + REMBILUNG_CELL_RECORD * line * picture->of_line, records_in(picture, line),
                              &picture->pushes[line]);
    return known && find_longest(picture);
}

/* However small a push is beside the longest bar's, it has a bar. */
static int bar_of(uint32_t push, uint32_t longest) {
    return longest == 0 ? 0 : (int)(((uint64_t)push * BAR_MOST + longest - 1) / longest);
}

void print_picture(FILE *to, const Picture *picture) {
    fprintf(to, "records: %zu, records of a line: %" PRIu32 ", longest bar: %" PRIu32 " N\n", picture->count, picture->of_line,
            picture->longest);
    for (size_t line = 0; line < picture->lines; line++) {
        size_t first = line * picture->of_line, last = first + records_in(picture, line) - 1;
        int bar = bar_of(picture->pushes[line], picture->longest);
        fprintf(to, "%4zu to %4zu %6" PRIu32 "%s%.*s\n", first, last, picture->pushes[line], bar > 0 ? " " : "", bar,
                longest_bar);
    }
}
