/* The inputs of the measurements on load cells: a fixed, seeded set of runs of records in classes. */
#ifndef CELLS_H
#define CELLS_H

#include "inputs.h"

enum { CELL_RUNS = 4, CELL_RUN_BYTES = REMBILUNG_CELL_RECORD * REMBILUNG_CELL_RECORDS_MOST };
/* The first classes have an aim: rising, falling and random pushes, each over stretches of 1, 10 and 500 records. */
enum { CELL_ORDERS = 3, CELL_STRETCHES = 3, CELL_AIMS = CELL_ORDERS * CELL_STRETCHES, CELL_CLASSES = CELL_AIMS + 4 };

/* The arguments of one call; what is written has room elsewhere. */
typedef struct {
    const uint8_t *records;
    size_t records_len;
    uint32_t w;
    size_t out_len;
} CellInput;

/* A class: its name, which runs its inputs are, so that classes of other w have the same, how much of each, w, and by how many
 * bytes the room is too short. */
typedef struct {
    const char *name;
    int runs, records;
    uint32_t w;
    size_t missing;
} CellClass;

extern const CellClass cell_classes[CELL_CLASSES];
extern CellInput cells[CELL_CLASSES][CELL_RUNS];

/* Fills cells, after the other inputs; the same on every run. */
void make_cells(void);
/* Writes a record: its kind, and the bits of its newtons. */
void put_record(uint8_t *record, uint32_t kind, uint32_t bits);
/* The bits of half as many newtons. */
uint32_t half_newtons(uint32_t halves);

#endif
