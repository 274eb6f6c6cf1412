/* What the calls in plain C that read a book have in common: where its columns begin, its rows, and whether one stands. */
#ifndef PLAIN_COLUMNS_H
#define PLAIN_COLUMNS_H

#include <string.h>

#include "plain_job.h"

enum { ROWS_MOST = 200 };

static inline int row_stands(const uint32_t *row) {
    Job job;
    memcpy(&job, row, sizeof job);
    return examine_job(row, &job) == 0;
}

/* Moves behind a column; refusal 9, or 0. */
static inline uint64_t pass_column(const uint8_t *book, size_t length, size_t count, size_t *at) {
    uint32_t number;
    for (size_t r = 0; r < count; r++) {
        size_t first = *at;
        if (!read_number(book, length, at, &number))
            return refuse(9, first);
    }
    return 0;
}

/* Refusal 9, or 0 and the place of each column's first byte, the first being given. */
static inline uint64_t find_columns(const uint8_t *book, size_t length, size_t count, size_t *column) {
    size_t at = column[0];
    for (int k = 0; k < NUMBERS; k++) {
        column[k] = at;
        uint64_t refusal = pass_column(book, length, count, &at);
        if (refusal != 0)
            return refusal;
    }
    return at < length ? refuse(9, at) : 0;
}

/* Refusal 9 or 10, or 0, the number of rows and the place of each column's first byte; a book of no bytes has no rows. */
static inline uint64_t open_book(const uint8_t *book, size_t length, uint32_t *count, size_t *column) {
    *count = 0;
    column[0] = 0;
    if (length == 0)
        return 0;
    if (!read_number(book, length, &column[0], count))
        return refuse(9, 0);
    return *count > ROWS_MOST ? refuse(10, *count) : find_columns(book, length, *count, column);
}

/* A number that is known to be whole, and on behind it. */
static inline uint32_t take_number(const uint8_t *book, size_t *at) {
    uint32_t value = book[*at] & 0x7F;
    for (int shift = 7; book[(*at)++] >= 0x80; shift += 7)
        value |= (uint32_t)(book[*at] & 0x7F) << shift;
    return value;
}

static inline void take_row(const uint8_t *book, size_t *column, uint32_t *row) {
    for (int k = 0; k < NUMBERS; k++)
        row[k] = take_number(book, &column[k]);
}

#endif
