/* The inputs of the measurements on a mild and a harsh job: a fixed, seeded set of pairs in classes. */
#ifndef PAIRS_H
#define PAIRS_H

#include "inputs.h"

enum { PAIR_CLASSES = 4, PAIRS = 512 };

/* The arguments of one call, and the job file of each end, for the calls on one job that it is measured against. */
typedef struct {
    const uint8_t *sheet;
    size_t sheet_len;
    uint32_t mild[REMBILUNG_NUMBERS], harsh[REMBILUNG_NUMBERS];
    uint8_t mild_file[FILE_ROOM], harsh_file[FILE_ROOM];
    size_t mild_len, harsh_len;
} PairInput;

/* A class: its name, and what is done to an accepted pair to get there. */
typedef struct {
    const char *name;
    void (*spoil)(PairInput *);
} PairClass;

extern const PairClass pair_classes[PAIR_CLASSES];
extern PairInput pairs[PAIR_CLASSES][PAIRS];

/* Fills pairs, after make_inputs; the same on every run. */
void make_pairs(void);
/* Makes the harsh end from the mild: the same, or harsher by what is known late on a site, or in any of some numbers. */
void make_harsh(const uint32_t *mild, uint32_t *harsh);

#endif
