/* The rows of a depot's table on their way into a season's book. */
#include "packing.h"

#include <inttypes.h>
#include <stdio.h>
#include <string.h>

#include "book.h"
#include "cells.h"
#include "explain.h"
#include "files.h"
#include "refuse.h"
#include "status.h"

/* A table's file. Its front is kept: no later byte changes whether the library takes it for a book. */
typedef struct {
    Input input;
    uint8_t front[BOOK_ROOM];
    size_t length;
} TableFile;

static size_t more_of_table(void *from, char *into, size_t room) {
    TableFile *file = from;
    size_t taken = more_of_input(&file->input, into, room), left = sizeof file->front - file->length;
    size_t kept = taken < left ? taken : left;
    memcpy(file->front + file->length, into, kept);
    file->length += kept;
    return taken;
}

static void keep_row(Packing *packing, const uint32_t *numbers, const Answer *answer) {
    if (packing->kept == KEPT_MOST)
        return;
    Origin *from = &packing->from[packing->kept];
    from->row = answer->row;
    from->name_length = answer->name_length < sizeof from->name ? answer->name_length : sizeof from->name;
    memcpy(from->name, answer->name, from->name_length);
    memcpy(packing->numbers + REMBILUNG_NUMBERS_OF(packing->kept++), numbers, REMBILUNG_NUMBERS * sizeof numbers[0]);
}

/* A row that cannot be read is said, and the others are read all the same, so that all such rows are known at once. */
RowResult read_rows(Packing *packing) {
    uint32_t numbers[REMBILUNG_NUMBERS] = {0};
    Answer answer;
    RowResult result = ROWS_BEGIN;
    while (result < ROW_DAMAGED) {
        result = rows_next(&packing->rows, numbers, &answer);
        if (result == ROW_OF_JOB)
            keep_row(packing, numbers, &answer);
        if (result == ROW_UNREADABLE || result == ROW_DAMAGED)
            say_row(packing->rows.said, &answer);
        packing->unreadable += result == ROW_UNREADABLE;
    }
    return result;
}

int is_whole(const Packing *packing, RowResult last) {
    const Rows *rows = &packing->rows;
    if (last == ROWS_END && rows->known && packing->unreadable == 0)
        return 1;
    if (last == ROWS_END && !rows->known)
        fputs("rembilung: the table is empty; a book of no rows is made from the row of names alone\n", rows->said);
    else if (packing->unreadable > 0)
        fprintf(rows->said, "rembilung: rows that cannot be read: %" PRIu64 "; %s\n", packing->unreadable, packing->undone);
    else
        fprintf(rows->said, "rembilung: %s\n", packing->undone);
    return 0;
}

/* Whether all rows are known; where not, says why, also where the file is no table because it is a book. */
static int is_table(const Packing *packing, RowResult last, const TableFile *file) {
    if (file->input.why != 0)
        return cannot("read", file->input.path, file->input.why);
    if (is_whole(packing, last))
        return 1;
    if (is_book(file->front, file->length))
        fprintf(packing->rows.said, "rembilung: '%s' is %s\n", file->input.path, packing->if_book);
    return 0;
}

int read_packing(Packing *packing, const char *path) {
    static Csv csv;
    static TableFile file;
    Source source = {more_of_table, &file};
    if (!open_input(&file.input, path, NULL))
        return 0;
    packing->rows.csv = &csv;
    packing->rows.said = stderr;
    rows_open(&packing->rows, source);
    RowResult last = read_rows(packing);
    fclose(file.input.from);
    return is_table(packing, last, &file);
}

static int refuse_count(const Packing *packing) {
    uint64_t count = packing->rows.count;
    Text words = {{0}, 0};
    text_add(&words, "the table has %" PRIu64 " rows, and a book has at most %d: row %" PRIu64
             " of the table is the first too many", count, REMBILUNG_BOOK_ROWS_MOST,
             packing->from[REMBILUNG_BOOK_ROWS_MOST].row);
    return refuse_in_words(10, count < UINT32_MAX ? (uint32_t)count : UINT32_MAX, &words);
}

static int refuse_row(const Packing *packing, uint32_t row) {
    const uint32_t *numbers = packing->numbers + REMBILUNG_NUMBERS_OF(row);
    Answer answer = {0};
    text_add(&answer.words, "row %" PRIu64 " of the table, row %" PRIu32 " of the book counting from 0, cannot stand: ",
             packing->from[row].row, row);
    explain_cells(&packing->rows.columns, numbers, refusal_of_row(numbers), &answer);
    add_if_support(&answer.words, numbers, book_takes);
    return refuse_in_words(11, row, &answer.words);
}

int make_book(const Packing *packing, uint8_t book[REMBILUNG_BOOK_MOST], size_t *length) {
    uint64_t made = rembilung_write_book(packing->numbers, REMBILUNG_NUMBERS_OF(packing->kept), book, REMBILUNG_BOOK_MOST);
    uint32_t refusal = rembilung_refusal(made), place = rembilung_place(made);
    if (refusal == 10 && packing->kept == KEPT_MOST)
        return refuse_count(packing);
    if (refusal == 11 && place < packing->kept)
        return refuse_row(packing, place);
    if (refusal != 0)
        return refuse(made, &scaffold, NULL);
    if (made > REMBILUNG_BOOK_MOST)
        return unknown_answer();
    *length = (size_t)made;
    return JUDGED;
}
