/* The first failing row of a book: which refusal goes first, before every answer, and rows that are bad beside rows that fail. */
#include <string.h>

#include "book_faults.h"
#include "check.h"
#include "failing.h"
#include "parts.h"

enum { MOST = REMBILUNG_BOOK_ROWS_MOST, STRENGTH = REMBILUNG_GROUND_STRENGTH };

static uint32_t rows[REMBILUNG_NUMBERS_OF(MOST)];

/* J, whose ground bears too little by 93 N, fails check 11 alone; with 201 kPa it passes. */
static void put_row(size_t row, int fails) {
    memcpy(rows + REMBILUNG_NUMBERS_OF(row), job_j, sizeof job_j);
    rows[REMBILUNG_NUMBERS_OF(row) + STRENGTH] = fails ? 200 : 201;
}

/* Faults of the sheet are tried before those of the book. A row that fails stands before or behind the one that may be bad. */
enum { LENGTH = BOOK_FAULTS, ENTRY = 64, FAILS_BEFORE = 128, FAILS_BEHIND = 256, FAULTS = 512 };

static Answer first_due(int faults, size_t sheet_length, Answer of_book, uint32_t count) {
    if (faults & LENGTH)
        return refused(1, (uint32_t)sheet_length);
    if (faults & ENTRY)
        return refused(2, 3);
    if (of_book.refusal != 0)
        return of_book;
    if (faults & FAILS_BEFORE)
        return fails_first_at(0);
    return faults & FAILS_BEHIND ? fails_first_at(2) : none_fails_of(count);
}

/* Sheet T, of which an entry is 0, or the last byte is not lent. */
static size_t put_sheet(int faults, Sheet *sheet) {
    *sheet = sheet_t();
    if (faults & ENTRY)
        set_entry(sheet, 3, 0);
    return REMBILUNG_SHEET_BYTES - (faults & LENGTH ? 1 : 0);
}

static void in_order(int faults) {
    static FaultyBook book;
    Sheet sheet;
    size_t length = put_sheet(faults, &sheet);
    put_row(0, faults & FAILS_BEFORE);
    put_row(1, 0);
    put_row(2, faults & FAILS_BEHIND);
    if (faults & BAD_ROW)
        spoil_row(rows);
    put_faulty(rows, faults, &book);
    case_begins("first_failing with faults %03x (hexadecimal): sheet length %d, entry %d, count damaged %d, count 201 %d, number "
                "damaged %d, extra byte %d, row 1 bad %d, row 0 fails %d, row 2 fails %d", faults, !!(faults & LENGTH),
                !!(faults & ENTRY), !!(faults & COUNT_DAMAGED), !!(faults & COUNT_HIGH), !!(faults & DAMAGED), !!(faults & EXTRA),
                !!(faults & BAD_ROW), !!(faults & FAILS_BEFORE), !!(faults & FAILS_BEHIND));
    expect_first_failing((Bytes){sheet.bytes, length}, (Bytes){book.bytes, book.length},
                         first_due(faults, length, faulty_due(faults, &book), FEW_ROWS));
}

/* A bad sheet is refused also where there is no row to judge. */
static void no_rows_in_order(int faults) {
    static const uint8_t no_rows[] = {0x00};
    Sheet sheet;
    size_t length = put_sheet(faults, &sheet);
    Answer due = first_due(faults, length, refused(0, 0), 0);
    case_begins("first_failing of no rows: sheet length %d, entry %d", !!(faults & LENGTH), !!(faults & ENTRY));
    expect_first_failing((Bytes){sheet.bytes, length}, (Bytes){no_rows, 0}, due);
    expect_first_failing((Bytes){sheet.bytes, length}, (Bytes){no_rows, 1}, due);
}

/* A bad row is named wherever it stands, and whichever rows fail. */
static void bad_beside_failing(uint32_t bad, size_t failing) {
    static Book book;
    Sheet t = sheet_t();
    for (size_t r = 0; r < MOST; r++)
        put_row(r, r == failing);
    rows[REMBILUNG_NUMBERS_OF(bad) + bad % REMBILUNG_NUMBERS] = UINT32_MAX;
    make_book(&book, rows, MOST);
    case_begins("a book of %d rows, row %u bad, row %zu fails", MOST, (unsigned)bad, failing);
    expect_first_failing(sheet_bytes(&t), book_bytes(&book), refused(11, bad));
}

static void every_bad_beside_failing(void) {
    static const uint32_t places[] = {0, 1, 2, 99, 100, 101, MOST - 2, MOST - 1};
    enum { PLACES = sizeof places / sizeof *places };
    for (size_t k = 0; k < PLACES * PLACES; k++)
        bad_beside_failing(places[k / PLACES], places[k % PLACES]);
}

void test_first_order(void) {
    for (int faults = 0; faults < FAULTS; faults++)
        in_order(faults);
    for (int faults = 0; faults <= (LENGTH | ENTRY); faults += LENGTH)
        no_rows_in_order(faults);
    every_bad_beside_failing();
}
