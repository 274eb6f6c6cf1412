/* Reads the jobs of a table row by row. */
#include "rows.h"

#include <inttypes.h>
#include <string.h>

#include "cells.h"

void rows_open(Rows *rows, Source source) {
    csv_open(rows->csv, source);
    if (rows->csv->separator != ',')
        fprintf(rows->said, "rembilung: cells are separated by %s\n", rows->csv->separator == ';' ? "semicolons" : "tabs");
}

/* The next row that is not blank. */
static CsvResult next_filled(Rows *rows) {
    CsvResult read = csv_read(rows->csv);
    for (; read == CSV_ROW && csv_is_blank(rows->csv); read = csv_read(rows->csv))
        rows->blank++;
    int whole = read != CSV_END && read < CSV_OPEN_QUOTE;
    if (whole && rows->csv->broken && rows->broken++ == 0)
        rows->first_broken = rows->csv->row;
    return read;
}

/* Begins the answer to the row last read, with its name where the row is whole and has one. */
static void begin_answer(const Rows *rows, CsvResult read, Answer *answer) {
    memset(answer, 0, sizeof *answer);
    answer->row = rows->csv->row;
    answer->column = NO_COLUMN;
    answer->name = "";
    if (read == CSV_ROW && rows->known && rows->columns.name < rows->csv->cells)
        answer->name = csv_cell(rows->csv, rows->columns.name, &answer->name_length);
}

/* Where the row ends is not known, so neither is where the next begins. */
static RowResult stop_at_damage(const Rows *rows, CsvResult read, Answer *answer) {
    char letters[CSV_LETTERS];
    answer->result = "damaged";
    if (read != CSV_UTF_16) {
        answer->column = rows->csv->cells;
        csv_letters(answer->column, letters);
        text_add(&answer->words, "column %s: ", letters);
    }
    text_add(&answer->words, "%s", csv_fault(read));
    if (read == CSV_OPEN_QUOTE)
        text_add(&answer->words, " (it stands on line %" PRIu64 " of the file)", rows->csv->quote_line);
    return ROW_DAMAGED;
}

/* Names in a later row: two tables in one file, or a title above the names; the columns may be others from there on. */
static RowResult stop_at_names(const Rows *rows, Answer *answer) {
    begin_answer(rows, CSV_ROW, answer);
    answer->result = "damaged";
    text_add(&answer->words, "names of a job's numbers stand here, and they may stand in the first row alone");
    return ROW_DAMAGED;
}

static RowResult learn_columns(Rows *rows, CsvResult read) {
    if (read != CSV_ROW)
        fprintf(rows->said, "rembilung: row %" PRIu64 ": %s\n", rows->csv->row, csv_fault(read));
    rows->known = read == CSV_ROW && columns_of(rows->csv, &rows->columns, rows->said);
    rows->ahead = rows->known && !rows->columns.headed;
    return rows->known ? ROWS_BEGIN : ROWS_UNKNOWN;
}

static RowResult read_job(Rows *rows, CsvResult read, uint32_t *numbers, Answer *answer) {
    if (read != CSV_ROW)
        text_add(&answer->words, "%s", csv_fault(read));
    int whole = read == CSV_ROW && read_cells(rows->csv, &rows->columns, numbers, answer);
    if (!whole && read == CSV_ROW && has_names(rows->csv))
        return stop_at_names(rows, answer);
    rows->count++;
    answer->result = whole ? "" : "unreadable";
    return whole ? ROW_OF_JOB : ROW_UNREADABLE;
}

RowResult rows_next(Rows *rows, uint32_t *numbers, Answer *answer) {
    CsvResult read = rows->ahead ? CSV_ROW : next_filled(rows);
    rows->ahead = 0;
    begin_answer(rows, read, answer);
    if (read == CSV_END)
        return ROWS_END;
    if (read >= CSV_OPEN_QUOTE)
        return stop_at_damage(rows, read, answer);
    return rows->known ? read_job(rows, read, numbers, answer) : learn_columns(rows, read);
}

void say_row(FILE *said, const Answer *answer) {
    Text numbers = {{0}, 0};
    if (answer->refusal > 0)
        text_add(&numbers, " %" PRIu32 " %" PRIu32, answer->refusal, answer->place);
    fprintf(said, "rembilung: row %" PRIu64 ", %s%s: %s\n", answer->row, answer->result, numbers.bytes,
            answer->words.bytes);
}

void say_number_of_rows(const Rows *rows) {
    fprintf(rows->said, "rembilung: rows: %" PRIu64 "\n", rows->count);
}

void say_passed_over(const Rows *rows) {
    if (rows->blank > 0)
        fprintf(rows->said, "rembilung: blank rows passed over: %" PRIu64 "\n", rows->blank);
    if (rows->broken > 0)
        fprintf(rows->said, "rembilung: rows with a line end inside a cell: %" PRIu64 ", the first is row %" PRIu64 "\n",
                rows->broken, rows->first_broken);
}
