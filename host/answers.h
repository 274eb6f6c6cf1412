/* The table of answers: a row for each row that was read. */
#ifndef ANSWERS_H
#define ANSWERS_H

#include <stddef.h>
#include <stdint.h>
#include <stdio.h>

#include "columns.h"
#include "report.h"
#include "text.h"

/* What became of a row. Where it was not judged, report is null and words say why. */
typedef struct {
    uint64_t row;
    const char *name;
    size_t name_length;
    const char *result;   /* passes, fails, refused, unreadable or damaged */
    uint32_t refusal;     /* 0 where nothing was refused */
    uint32_t place;
    size_t column;        /* of the cell at fault, or NO_COLUMN */
    Text words;
    const Report *report;
    uint32_t height;
} Answer;

void put_answer_names(FILE *to, char separator);
void put_answer(FILE *to, char separator, const Answer *answer);

#endif
