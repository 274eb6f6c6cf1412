/* The inputs of the measurements: a fixed, seeded set of calls in classes, and a mix of them by stated weights. */
#ifndef INPUTS_H
#define INPUTS_H

#include "rembilung.h"

enum { FILE_ROOM = 128, SHEET_ROOM = 600, GOOD_SHEETS = 4, CLASSES = 11, PER_CLASS = 512, MIX = 1000 };

/* The arguments of one whole call; the job's numbers stand beside its file. The sheet is one of a few that stand, as a
 * unit has one and it stays at hand, or the input's own where its entries are spoiled. */
typedef struct {
    const uint8_t *sheet;
    size_t sheet_len, file_len, report_len;
    uint8_t file[FILE_ROOM];
    uint32_t numbers[REMBILUNG_NUMBERS];
    uint8_t own_sheet[SHEET_ROOM];
} Input;

/* A class: its name, its share in the mix out of MIX, and what is done to an accepted job to get there. */
typedef struct {
    const char *name;
    int share;
    void (*make)(Input *);
} Class;

extern const Class classes[CLASSES];
extern uint8_t good_sheets[GOOD_SHEETS][SHEET_ROOM];
extern Input inputs[CLASSES][PER_CLASS];
extern const Input *mix[MIX];

/* Fills inputs and mix; the same on every run. */
void make_inputs(void);

/* A next pseudo-random number from low to high. */
uint32_t from_to(uint32_t low, uint32_t high);
/* A random job in range, without contradiction, of a family. */
void random_job(uint32_t family, uint32_t *numbers);
/* A number in groups as the papers have them; how many bytes. */
size_t put_groups(uint32_t number, uint8_t *to);
/* Packs the numbers of a job, 13 where the first is 3, into a file as the papers have it, and returns its length. */
size_t pack(const uint32_t *numbers, uint8_t *file);

#endif
