/* Judges a table of jobs row by row, and writes the table of answers. */
#ifndef TABLE_H
#define TABLE_H

#include <signal.h>
#include <stdint.h>
#include <stdio.h>

#include "rows.h"
#include "tally.h"

typedef struct {
    Rows rows;
    const uint8_t *sheet; /* one that the library does not refuse */
    size_t sheet_length;
    FILE *out;
    const volatile sig_atomic_t *stop; /* where it is not 0, judging stops */
    /* The rest begins as zeros. */
    Tally tally;
    int status;
} Table;

/* The answer is the exit status: JUDGED, REFUSED where a row was refused or unreadable, UNUSABLE where the table was not
 * read to its end, which was said. */
int judge_table(Table *table);

#endif
