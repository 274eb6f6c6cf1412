/* Judges a table of jobs row by row, and writes the table of answers. */
#include "table.h"

#include <inttypes.h>

#include "answers.h"
#include "cells.h"
#include "rembilung.h"
#include "status.h"

/* A line of progress comes after so many rows, so that a short table has none. */
#define PROGRESS_ROWS 10000

static void finish_row(Table *table, const Answer *answer) {
    put_answer(table->out, table->rows.csv->separator, answer);
    if (answer->report != NULL)
        return;
    say_row(table->rows.said, answer);
    if (table->status == JUDGED)
        table->status = REFUSED;
}

static void finish_refused(Table *table, const uint32_t *numbers, uint64_t result, Answer *answer) {
    answer->result = "refused";
    answer->refusal = rembilung_refusal(result);
    answer->place = rembilung_place(result);
    tally_refused(&table->tally, answer->refusal);
    explain_cells(&table->rows.columns, numbers, result, answer);
    finish_row(table, answer);
}

static void finish_judged(Table *table, const uint32_t *numbers, const Report *report, Answer *answer) {
    int failing = first_failing(report);
    answer->report = report;
    answer->height = numbers[REMBILUNG_HEIGHT];
    answer->result = failing == 0 ? "passes" : "fails";
    if (failing > 0)
        text_add(&answer->words, "check %d fails: %s", failing, check_names[failing - 1]);
    tally_judged(&table->tally, report);
    finish_row(table, answer);
}

static void judge_numbers(Table *table, const uint32_t *numbers, Answer *answer) {
    uint8_t bytes[REMBILUNG_REPORT_MOST];
    Report report;
    uint64_t result = report_on(table->sheet, table->sheet_length, numbers, bytes);
    if (rembilung_refused(result)) {
        finish_refused(table, numbers, result, answer);
        return;
    }
    if (read_report(bytes, (size_t)result, &scaffold, &report)) {
        finish_judged(table, numbers, &report, answer);
        return;
    }
    fprintf(table->rows.said, "rembilung: row %" PRIu64 ": the library's report is not one that this program knows\n",
            answer->row);
    table->status = UNUSABLE;
}

/* The last row that is answered, since what stands after it cannot be trusted. */
static void finish_damaged(Table *table, Answer *answer) {
    text_add(&answer->words, "; neither this row nor any after it was judged");
    if (table->rows.known)
        put_answer(table->out, table->rows.csv->separator, answer);
    say_row(table->rows.said, answer);
    table->status = UNUSABLE;
}

/* The names of the answers are written once the table can be read. */
static void begin_answers(Table *table) {
    /* A spreadsheet tells UTF-8 by the mark, so names that came with it go with it. */
    if (table->rows.csv->marked)
        fputs("\xEF\xBB\xBF", table->out);
    put_answer_names(table->out, table->rows.csv->separator);
}

static void show_progress(const Table *table) {
    if (table->rows.count % PROGRESS_ROWS == 0)
        fprintf(table->rows.said, "rembilung: %" PRIu64 " rows so far\n", table->rows.count);
}

static void take_row(Table *table, RowResult result, const uint32_t *numbers, Answer *answer) {
    switch (result) {
    case ROWS_BEGIN:
        begin_answers(table);
        break;
    case ROW_OF_JOB:
        judge_numbers(table, numbers, answer);
        show_progress(table);
        break;
    case ROW_UNREADABLE:
        table->tally.unreadable++;
        finish_row(table, answer);
        show_progress(table);
        break;
    case ROW_DAMAGED:
        finish_damaged(table, answer);
        break;
    default:
        table->status = UNUSABLE;
    }
}

static int is_stopped(const Table *table) {
    return table->status == UNUSABLE || *table->stop != 0 || ferror(table->out);
}

int judge_table(Table *table) {
    uint32_t numbers[REMBILUNG_NUMBERS] = {0};
    Answer answer;
    RowResult result = ROWS_BEGIN;
    while (!is_stopped(table) && (result = rows_next(&table->rows, numbers, &answer)) != ROWS_END)
        take_row(table, result, numbers, &answer);
    return is_stopped(table) ? UNUSABLE : table->status;
}
