/* The two calls on a book in plain C, from requests 3 and 9 of document 02 as docs/DECISIONS.md reads them: what the library's
 * are measured against.
 *
 * A unit has no room for 5,000 numbers beside the caller's, and a refusal comes before the first byte written. So a book is
 * gone through three times: number by number for damage, row by row with a place in each column, and into the lent rows. */
#include "plain.h"
#include "plain_columns.h"

static size_t groups_of(uint32_t number) {
    size_t groups = 1;
    while (number >= 0x80) {
        number >>= 7;
        groups++;
    }
    return groups;
}

static size_t bytes_of(const uint32_t *row) {
    size_t bytes = 0;
    for (int k = 0; k < NUMBERS; k++)
        bytes += groups_of(row[k]);
    return bytes;
}

/* Refusal 11, or the book's length. */
static uint64_t measure_rows(const uint32_t *rows, size_t count) {
    size_t bytes = groups_of((uint32_t)count);
    for (size_t r = 0; r < count; r++) {
        if (!row_stands(rows + NUMBERS * r))
            return refuse(11, r);
        bytes += bytes_of(rows + NUMBERS * r);
    }
    return bytes;
}

static uint8_t *put_number(uint8_t *to, uint32_t number) {
    while (number >= 0x80) {
        *to++ = (uint8_t)(number | 0x80);
        number >>= 7;
    }
    *to++ = (uint8_t)number;
    return to;
}

static uint8_t *put_column(uint8_t *to, const uint32_t *first, size_t count) {
    for (size_t r = 0; r < count; r++)
        to = put_number(to, first[NUMBERS * r]);
    return to;
}

uint64_t plain_write_book(const uint32_t *rows, size_t numbers, uint8_t *book, size_t book_len) {
    size_t count = numbers / NUMBERS;
    if (count > ROWS_MOST)
        return refuse(10, count);
    uint64_t length = measure_rows(rows, count);
    if (length > UINT32_MAX)
        return length;
    if (length > book_len)
        return refuse(8, length);
    uint8_t *to = put_number(book, (uint32_t)count);
    for (int k = 0; k < NUMBERS; k++)
        to = put_column(to, rows + k, count);
    return length;
}

/* Refusal 11, or 0. */
static uint64_t examine_rows(const uint8_t *book, size_t count, size_t *column) {
    uint32_t row[NUMBERS];
    for (size_t r = 0; r < count; r++) {
        take_row(book, column, row);
        if (!row_stands(row))
            return refuse(11, r);
    }
    return 0;
}

static void take_column(const uint8_t *book, size_t *at, uint32_t *first, size_t count) {
    for (size_t r = 0; r < count; r++)
        first[NUMBERS * r] = take_number(book, at);
}

uint64_t plain_read_book(const uint8_t *book, size_t book_len, uint32_t *rows, size_t numbers) {
    size_t column[NUMBERS];
    uint32_t count;
    uint64_t refusal = open_book(book, book_len, &count, column);
    size_t at = column[0];
    if (refusal == 0)
        refusal = examine_rows(book, count, column);
    if (refusal != 0)
        return refusal;
    if (count > numbers / NUMBERS)
        return refuse(8, count);
    for (int k = 0; k < NUMBERS; k++)
        take_column(book, &at, rows + k, count);
    return count;
}
