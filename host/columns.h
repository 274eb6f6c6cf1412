/* Which column of a table holds which number of a job. */
#ifndef COLUMNS_H
#define COLUMNS_H

#include <stddef.h>
#include <stdio.h>

#include "csv.h"
#include "rembilung.h"

#define NO_COLUMN ((size_t)-1)

typedef struct {
    int named;                       /* whether a column may name the facades; the caller says it */
    int headed;                      /* whether the row read is one of names, and no job */
    size_t width;                    /* how many cells every row has */
    size_t of[REMBILUNG_NUMBERS];    /* the column of each number */
    size_t name;                     /* the column that names a facade, or NO_COLUMN */
} Columns;

/* From the first row that is not blank: names in any order, or numbers in the paper's. 0 where it is neither, or where a
 * name is missing or comes twice, and that was said. */
int columns_of(const Csv *first, Columns *columns, FILE *said);

/* Whether several cells of a row are names of a job's numbers; a facade may be called as one of them is. */
int has_names(const Csv *row);

/* Prints the names as such a row. */
void print_template(FILE *to);

#endif
