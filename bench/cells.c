/* Makes the inputs of the measurements on load cells: runs of pushes in three orders, of all kinds, and one that is wrong late. */
#include "cells.h"

#include <string.h>

enum { RISING, FALLING, RANDOM, ALL_KINDS, WRONG_END, ORDERS };
enum { NUMBER_BYTES = 4, RECORDS = REMBILUNG_CELL_RECORDS_MOST, FEW = 80, HALVES_MOST = 200000, STEP = HALVES_MOST / RECORDS };

CellInput cells[CELL_CLASSES][CELL_RUNS];
static uint8_t runs[ORDERS][CELL_RUNS][CELL_RUN_BYTES];

const CellClass cell_classes[CELL_CLASSES] = {
    {"rising, w = 1", RISING, RECORDS, 1, 0},
    {"rising, w = 10", RISING, RECORDS, 10, 0},
    {"rising, w = 500", RISING, RECORDS, 500, 0},
    {"falling, w = 1", FALLING, RECORDS, 1, 0},
    {"falling, w = 10", FALLING, RECORDS, 10, 0},
    {"falling, w = 500", FALLING, RECORDS, 500, 0},
    {"random, w = 1", RANDOM, RECORDS, 1, 0},
    {"random, w = 10", RANDOM, RECORDS, 10, 0},
    {"random, w = 500", RANDOM, RECORDS, 500, 0},
    {"pushes, pulls and silence, w = 10", ALL_KINDS, RECORDS, 10, 0},
    {"random, few records, w = 10", RANDOM, FEW, 10, 0},
    {"14 last record wrong", WRONG_END, RECORDS, 10, 0},
    {"8 room too short", RANDOM, RECORDS, 10, 1},
};

uint32_t half_newtons(uint32_t halves) {
    float newtons = (float)halves / 2;
    uint32_t bits;
    memcpy(&bits, &newtons, sizeof bits);
    return bits;
}

static void put_word(uint8_t *to, uint32_t word) {
    for (int k = 0; k < 4; k++)
        to[k] = (uint8_t)(word >> 8 * k);
}

void put_record(uint8_t *record, uint32_t kind, uint32_t bits) {
    put_word(record, kind);
    put_word(record + 4, bits);
}

static void put_push(uint8_t *run, int record, uint32_t halves) {
    put_record(run + REMBILUNG_CELL_RECORD * record, REMBILUNG_CELL_PUSH, half_newtons(halves));
}

/* Each record has a step of the range to itself, with its push anywhere in it, so that each push is above the one before it. */
static void fill_rising(uint8_t *run) {
    for (int k = 0; k < RECORDS; k++)
        put_push(run, k, (uint32_t)(STEP * k) + from_to(0, STEP - 1));
}

static void fill_falling(uint8_t *run) {
    for (int k = 0; k < RECORDS; k++)
        put_push(run, k, (uint32_t)(STEP * (RECORDS - 1 - k)) + from_to(0, STEP - 1));
}

static void fill_random(uint8_t *run) {
    for (int k = 0; k < RECORDS; k++)
        put_push(run, k, from_to(0, HALVES_MOST));
}

/* Of ten records seven are pushes, two are pulls, and one is silence. */
static void fill_all_kinds(uint8_t *run) {
    for (int k = 0; k < RECORDS; k++) {
        uint32_t draw = from_to(0, 9);
        uint32_t kind = draw < 7 ? REMBILUNG_CELL_PUSH : draw < 9 ? REMBILUNG_CELL_PULL : REMBILUNG_CELL_SILENT;
        put_record(run + REMBILUNG_CELL_RECORD * k, kind,
                   kind == REMBILUNG_CELL_SILENT ? 0 : half_newtons(from_to(0, HALVES_MOST)));
    }
}

/* The last record has no kind, is above the range, or below it. */
static void fill_wrong_end(uint8_t *run) {
    uint8_t *last = run + CELL_RUN_BYTES - REMBILUNG_CELL_RECORD;
    uint32_t what = from_to(0, 2);
    fill_random(run);
    if (what == 0)
        last[0] = 4;
    else
        put_record(last, REMBILUNG_CELL_PUSH, what == 1 ? half_newtons(HALVES_MOST + 1) : half_newtons(1) | 0x80000000u);
}

static void make_class(const CellClass *class, CellInput *to) {
    size_t records = (size_t)class->records;
    for (int run = 0; run < CELL_RUNS; run++)
        to[run] = (CellInput){runs[class->runs][run], REMBILUNG_CELL_RECORD * records, class->w,
                              NUMBER_BYTES * records - class->missing};
}

void make_cells(void) {
    static void (*const fill[ORDERS])(uint8_t *) = {fill_rising, fill_falling, fill_random, fill_all_kinds, fill_wrong_end};
    for (int order = 0; order < ORDERS; order++)
        for (int run = 0; run < CELL_RUNS; run++)
            fill[order](runs[order][run]);
    for (int class = 0; class < CELL_CLASSES; class++)
        make_class(&cell_classes[class], cells[class]);
}
