/* The first row of a season's book that has a failed check: what the library answered, looked up for the words, and shown. */
#ifndef FOUND_H
#define FOUND_H

#include <stddef.h>
#include <stdint.h>
#include <stdio.h>

#include "packing.h"
#include "report.h"
#include "sheet.h"

typedef struct {
    uint32_t row; /* from 0, or REMBILUNG_NONE */
    uint32_t judged;
    uint32_t rows; /* all rows of the book */
    size_t bytes;  /* of the book */
    Report report; /* on that row; with none, all zeros */
} Found;

/* 0 where these two numbers are no answer on this book, under this sheet, that this program knows. */
int look_up(Found *found, const uint32_t *answer, const Sheet *sheet, const uint8_t *book, size_t length);

/* A line for the row, one for how many were judged, and one for each check of the row that fails. */
void print_found(FILE *to, const Found *found);

/* Says in a sentence which row it is, what of it fails, and that the rows after it were not judged; or that none fails. The
 * table is the one that the book was made of, or null. */
void say_found(FILE *said, const Found *found, const Packing *table);

#endif
