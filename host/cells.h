/* The cells of a row as the numbers of a job. */
#ifndef CELLS_H
#define CELLS_H

#include <stdint.h>

#include "answers.h"
#include "columns.h"
#include "csv.h"

/* 0 where the row has not as many cells as every row, or a cell is no number; then the answer names the column and says why.
 * Of several bad cells the lowest number of the job is named, and all are counted. */
int read_cells(const Csv *csv, const Columns *columns, uint32_t *numbers, Answer *answer);

/* Says why the numbers of a row were refused; the answer names the column at fault, where there is one. */
void explain_cells(const Columns *columns, const uint32_t *numbers, uint64_t result, Answer *answer);

#endif
