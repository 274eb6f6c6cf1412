/* The cells of a row as the numbers of a job. */
#include "cells.h"

#include "explain.h"
#include "fields.h"
#include "number.h"
#include "rembilung.h"

/* 0 where the row has not as many cells as every row of the table. */
static int width_is_right(const Csv *csv, const Columns *columns, Answer *answer) {
    size_t cells = csv->cells, width = columns->width, k = 0;
    char letters[CSV_LETTERS];
    if (cells == width)
        return 1;
    answer->column = cells < width ? cells : width;
    csv_letters(answer->column, letters);
    while (k < REMBILUNG_NUMBERS && columns->of[k] != answer->column)
        k++;
    text_add(&answer->words, "the row has %zu cell%s and %s %zu: column %s", cells, cells == 1 ? "" : "s",
             columns->headed ? "the row of names has" : "a table without a row of names has", width, letters);
    if (cells > width)
        text_add(&answer->words, " is the first too many");
    else if (k < REMBILUNG_NUMBERS)
        text_add(&answer->words, ", %s, is missing", scaffold.fields[k].name);
    else
        text_add(&answer->words, " is missing");
    return 0;
}

/* Says what is wrong with the cell of a number. */
static void explain_cell(Answer *answer, NumberKind kind, const char *bytes, size_t length, const Field *field) {
    char letters[CSV_LETTERS];
    csv_letters(answer->column, letters);
    text_add(&answer->words, "column %s, %s: ", letters, field->name);
    if (length == 0) {
        text_add(&answer->words, "the cell is empty; it may be %s", field->range);
        return;
    }
    explain_number(&answer->words, kind, bytes, length, field);
    if (kind == NUMBER_NOT_WHOLE)
        text_add(&answer->words, "; digits alone are read, no thousands separator, decimals, sign or unit");
}

int read_cells(const Csv *csv, const Columns *columns, uint32_t *numbers, Answer *answer) {
    int bad = 0;
    if (!width_is_right(csv, columns, answer))
        return 0;
    for (int k = 0; k < REMBILUNG_NUMBERS; k++) {
        size_t length;
        const char *bytes = csv_trimmed(csv, columns->of[k], &length);
        NumberKind kind = read_number(bytes, length, &numbers[k]);
        if (kind == NUMBER_READ || bad++ > 0)
            continue;
        answer->column = columns->of[k];
        explain_cell(answer, kind, bytes, length, &scaffold.fields[k]);
    }
    if (bad > 1)
        text_add(&answer->words, "; cells of the row that are no number: %d", bad);
    return bad == 0;
}

void explain_cells(const Columns *columns, const uint32_t *numbers, uint64_t result, Answer *answer) {
    uint32_t refusal = rembilung_refusal(result), place = rembilung_place(result);
    char letters[CSV_LETTERS];
    /* The places of refusals 3, 4 and 5 are numbers of the job. */
    if (refusal >= 3 && refusal <= 5) {
        answer->column = columns->of[(place - 1) % REMBILUNG_NUMBERS];
        csv_letters(answer->column, letters);
        text_add(&answer->words, "column %s: ", letters);
    }
    explain(&answer->words, result, &scaffold, numbers);
}
