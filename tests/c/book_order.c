/* Refusals 10 and 11 of books, and which refusal goes first: every set of faults that can meet in one call. */
#include <string.h>

#include "book_faults.h"
#include "check.h"
#include "paper.h"
#include "parts.h"

enum { FEW_NUMBERS = FEW_ROWS * REMBILUNG_NUMBERS, MOST = REMBILUNG_BOOK_ROWS_MOST };

/* Counts above 200; the low bits of some are those of a count that stands. */
static const uint32_t high_counts[] = {201, 255, 256, 259, 328, 456, 16387, 65536, 65539, 2097155, 2147483651u, UINT32_MAX};

/* What makes a row bad: a field of the row from which it is made, and its value. 4 and 5 refuse the last five. */
typedef struct {
    const uint32_t *job;
    int field;
    uint32_t value;
} Bad;

enum { BAD_WAYS = 15 };
static const Bad bad_rows[BAD_WAYS] = {
    {job_j, 1, 3},         {job_j, 1, 0},           {job_j, 1, 259},         {job_j, 3, 106},       {job_j, 7, 5001},
    {job_j, 25, 0},        {single_job, 3, 59},     {single_job, 7, 2401},   {single_job, 18, 701}, {single_job, 25, 10001},
    {job_j, 10, 5},        {job_j, 12, 2999},       {single_job, 10, 8},     {single_job, 20, 180}, {single_job, 21, 2},
};

static uint32_t rows[FEW_NUMBERS];
static Book book;

static uint32_t *field_of(size_t row, int field) {
    return &rows[REMBILUNG_NUMBERS_OF(row) + (size_t)field - 1];
}

/* Writing and reading name the same row, whatever room there is; so does the search for a row that fails, which of these do. */
static void row_refused(uint32_t row) {
    Sheet t = sheet_t();
    make_book(&book, rows, FEW_ROWS);
    expect_first_failing(sheet_bytes(&t), book_bytes(&book), refused(11, row));
    expect_write_book(row_bytes(rows, FEW_ROWS), FEW_NUMBERS, REMBILUNG_BOOK_MOST, refused(11, row));
    expect_write_book(row_bytes(rows, FEW_ROWS), FEW_NUMBERS, 0, refused(11, row));
    expect_read_book(book_bytes(&book), FEW_NUMBERS, refused(11, row));
    expect_read_book(book_bytes(&book), 0, refused(11, row));
}

static void bad_row(uint32_t row, const Bad *bad) {
    put_few(rows);
    memcpy(field_of(row, 1), bad->job, REMBILUNG_NUMBERS * sizeof *rows);
    *field_of(row, bad->field) = bad->value;
    case_begins("row %u a job with field %d at %u", (unsigned)row, bad->field, (unsigned)bad->value);
    row_refused(row);
}

/* A support's 13 numbers and J's others are no scaffold job, though a file of the 13 is good. */
static void support_in_row(uint32_t row) {
    put_few(rows);
    memcpy(field_of(row, 1), job_j, sizeof job_j);
    memcpy(field_of(row, 1), one_support, sizeof one_support);
    case_begins("row %u a support", (unsigned)row);
    row_refused(row);
}

static void bad_in_some_way(uint32_t row) {
    for (size_t k = 0; k < BAD_WAYS; k++)
        bad_row(row, &bad_rows[k]);
}

static void bad_in_every_field(uint32_t row) {
    for (int field = 1; field <= REMBILUNG_NUMBERS; field++)
        bad_row(row, &(Bad){longest_job, field, UINT32_MAX});
}

static void every_row_bad(void) {
    for (uint32_t row = 0; row < FEW_ROWS; row++) {
        bad_in_some_way(row);
        bad_in_every_field(row);
        support_in_row(row);
    }
}

/* Whichever of the two is met first in the columns, the lower row is named. */
static void lower_of_two(int lower, int higher) {
    put_few(rows);
    *field_of(1, lower) = UINT32_MAX;
    *field_of(2, higher) = UINT32_MAX;
    case_begins("row 1 bad in field %d, row 2 in field %d", lower, higher);
    row_refused(1);
}

/* 3, 4 and 5 are alike here: a contradiction in a lower row goes before a range in a higher. */
static void lowest_of_three(const Bad *bad) {
    put_few(rows);
    memcpy(field_of(0, 1), bad->job, REMBILUNG_NUMBERS * sizeof *rows);
    *field_of(0, bad->field) = bad->value;
    *field_of(1, 1) = 3;
    *field_of(2, 1) = 0;
    case_begins("row 0 a job with field %d at %u, rows 1 and 2 bad in field 1", bad->field, (unsigned)bad->value);
    row_refused(0);
}

static void rows_bad_in_ranges(void) {
    for (int lower = 1; lower <= REMBILUNG_NUMBERS; lower++) {
        lower_of_two(lower, 1);
        lower_of_two(lower, REMBILUNG_NUMBERS + 1 - lower);
    }
}

static void rows_bad_in_any_way(void) {
    for (size_t k = 0; k < BAD_WAYS; k++)
        lowest_of_three(&bad_rows[k]);
}

/* The count, and so many bytes of what is lent behind it: nothing of that counts. */
static void high_count(uint32_t count, Bytes behind) {
    static uint8_t bytes[BOOK_ROOM];
    Sheet t = sheet_t();
    size_t groups = put_groups(count, bytes);
    memcpy(bytes + groups, behind.at, behind.length);
    case_begins("a book of %u rows, %zu bytes behind the count", (unsigned)count, behind.length);
    expect_read_book((Bytes){bytes, groups + behind.length}, FEW_NUMBERS, refused(10, count));
    expect_read_book((Bytes){bytes, groups + behind.length}, 0, refused(10, count));
    expect_first_failing(sheet_bytes(&t), (Bytes){bytes, groups + behind.length}, refused(10, count));
}

static void high_counts_refused(void) {
    uint8_t whatever[300];
    memset(whatever, 0xFF, sizeof whatever);
    put_few(rows);
    make_book(&book, rows, FEW_ROWS);
    for (size_t k = 0; k < sizeof high_counts / sizeof *high_counts; k++) {
        high_count(high_counts[k], (Bytes){whatever, 0});
        high_count(high_counts[k], (Bytes){whatever, 1});
        high_count(high_counts[k], (Bytes){whatever, sizeof whatever});
        high_count(high_counts[k], (Bytes){book.bytes + 1, book_bytes(&book).length - 1});
    }
}

/* Of reading there is one more, tried last. */
enum { SHORT = BOOK_FAULTS, READ_FAULTS = 2 * BOOK_FAULTS };

static void reading(int faults) {
    static FaultyBook faulty;
    put_few(rows);
    if (faults & BAD_ROW)
        spoil_row(rows);
    put_faulty(rows, faults, &faulty);
    Answer due = faulty_due(faults, &faulty);
    if (due.refusal == 0)
        due = faults & SHORT ? refused(8, FEW_ROWS) : gives(FEW_ROWS, row_bytes(rows, FEW_ROWS));
    case_begins("read_book with faults %02x (hexadecimal): count damaged %d, count 201 %d, number damaged %d, extra byte %d, "
                "bad row %d, short room %d", faults, !!(faults & COUNT_DAMAGED), !!(faults & COUNT_HIGH), !!(faults & DAMAGED),
                !!(faults & EXTRA), !!(faults & BAD_ROW), !!(faults & SHORT));
    expect_read_book((Bytes){faulty.bytes, faulty.length}, FEW_NUMBERS - (faults & SHORT ? 1 : 0), due);
}

/* The faults of writing, in their order. */
enum { MANY = 1, BAD = 2, SHORT_BOOK = 4, WRITE_FAULTS = 8 };

static Answer write_due(int faults, Bytes whole) {
    if (faults & MANY)
        return refused(10, MOST + 1);
    if (faults & BAD)
        return refused(11, 1);
    return faults & SHORT_BOOK ? refused(8, (uint32_t)whole.length) : gives((uint32_t)whole.length, whole);
}

static void writing(int faults) {
    static uint32_t many[REMBILUNG_NUMBERS_OF(MOST + 1)];
    size_t count = faults & MANY ? MOST + 1 : MOST;
    for (size_t r = 0; r < count; r++)
        memcpy(many + REMBILUNG_NUMBERS_OF(r), job_j, sizeof job_j);
    if (faults & BAD)
        many[REMBILUNG_NUMBERS_OF(2) - 1] = many[REMBILUNG_NUMBERS_OF(MOST - 1)] = 0;
    make_book(&book, many, count);
    size_t room = book_bytes(&book).length - (faults & SHORT_BOOK ? 1 : 0);
    case_begins("write_book with faults %x: 201 rows %d, bad rows %d, short buffer %d", faults, !!(faults & MANY),
                !!(faults & BAD), !!(faults & SHORT_BOOK));
    expect_write_book(row_bytes(many, count), REMBILUNG_NUMBERS_OF(count), room, write_due(faults, book_bytes(&book)));
}

static void every_set_of_faults(void) {
    for (int faults = 0; faults < READ_FAULTS; faults++) {
        reading(faults);
        if (faults < WRITE_FAULTS)
            writing(faults);
    }
}

void test_book_order(void) {
    every_row_bad();
    rows_bad_in_ranges();
    rows_bad_in_any_way();
    high_counts_refused();
    every_set_of_faults();
}
