/* Reads the jobs of a table row by row, for the command that does something with them. */
#ifndef ROWS_H
#define ROWS_H

#include <stdint.h>
#include <stdio.h>

#include "answers.h"
#include "columns.h"
#include "csv.h"

typedef enum {
    ROWS_BEGIN,     /* the first row has said which column holds which number; this comes once, before any job */
    ROW_OF_JOB,
    ROW_UNREADABLE, /* the next one can be read */
    /* After these nothing can be read. */
    ROW_DAMAGED,
    ROWS_UNKNOWN,   /* the first row does not say which column holds which number; why not was said */
    ROWS_END
} RowResult;

typedef struct {
    Csv *csv;
    FILE *said;
    Columns columns; /* of these the caller says named alone */
    /* The rest begins as zeros. */
    int known;       /* whether the columns are */
    int ahead;       /* whether the first row is a job, and still to be given */
    uint64_t count;  /* all but blank rows and the row of names */
    uint64_t blank;
    uint64_t broken; /* rows with a line end inside a cell */
    uint64_t first_broken;
} Rows;

/* Opens the table, and says where its cells are not separated by commas. */
void rows_open(Rows *rows, Source source);

/* The next row. Of a job it gives the numbers, of one that is unreadable or damaged the answer, which says why. */
RowResult rows_next(Rows *rows, uint32_t *numbers, Answer *answer);

/* Says on a line of its own why a row is no job, or was refused. */
void say_row(FILE *said, const Answer *answer);

/* Say how many rows there were, and which were passed over or are odd. */
void say_number_of_rows(const Rows *rows);
void say_passed_over(const Rows *rows);

#endif
