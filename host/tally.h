/* Counts what became of the rows of a table, and sums it up. */
#ifndef TALLY_H
#define TALLY_H

#include <stdint.h>
#include <stdio.h>

#include "report.h"

#define REFUSALS 8

typedef struct {
    uint64_t pass;
    uint64_t fail;
    uint64_t refused[REFUSALS + 1]; /* by number; what is above stands at 0, with nothing else */
    uint64_t unreadable;
    uint64_t failed[CHECKS]; /* rows that fail check k at k - 1 */
} Tally;

void tally_judged(Tally *tally, const Report *report);
void tally_refused(Tally *tally, uint32_t refusal);

/* Rows that were refused. */
uint64_t all_refused(const Tally *tally);

void print_tally(FILE *to, const Tally *tally);

#endif
