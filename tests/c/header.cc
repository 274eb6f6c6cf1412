// Calls every function of the header from C++, the header included first and twice; exit status 0 where job J is judged, and a
// support goes to a file and back, J to a book and back, J stands at both ends and is found failing in a book, and a load cell's
// record is worked out.
#include "rembilung.h"
#include "rembilung.h"

static const uint32_t job_j[REMBILUNG_NUMBERS] = {1,   1,   105,  150, 180, 2, 3000, 3,   4,    2, 3000, 5000, 0,
                                                  300, 300, 1000, 1,   200, 1, 240,  1,   8000, 4, 200,  2000};
static const uint32_t one_support[REMBILUNG_SUPPORT_NUMBERS] = {3, 1, 150, 30, 100, 9000, 6000, 300, 1000, 400, 4, 200, 2000};

/* A support's file goes back to its 13 numbers. */
static bool support_goes_round() {
    uint8_t file[REMBILUNG_SUPPORT_FILE_MOST];
    uint32_t numbers[REMBILUNG_NUMBERS];
    uint64_t made = rembilung_write_support(one_support, file, sizeof file);
    return !rembilung_refused(made) && rembilung_read_job(file, (size_t)made, numbers) == REMBILUNG_SUPPORT_NUMBERS &&
           numbers[REMBILUNG_SUPPORT_PAD_AREA] == 2000;
}

/* J's row goes into a book of 39 bytes and comes back, as one row of as many as there may be. */
static bool book_goes_round() {
    static uint8_t book[REMBILUNG_BOOK_MOST];
    static uint32_t rows[REMBILUNG_NUMBERS_OF(REMBILUNG_BOOK_ROWS_MOST)];
    uint64_t made = rembilung_write_book(job_j, REMBILUNG_NUMBERS_OF(1), book, sizeof book);
    uint64_t read = rembilung_read_book(book, (size_t)made, rows, REMBILUNG_NUMBERS_OF(REMBILUNG_BOOK_ROWS_MOST));
    return made == 39 && read == 1 && rows[REMBILUNG_NUMBERS_OF(0) + REMBILUNG_PAD_AREA] == 2000;
}

/* Under the sheet whose every factor is 1, check 11 alone fails at both ends. */
static bool ends_are_told(const uint8_t sheet[REMBILUNG_SHEET_BYTES]) {
    uint32_t answer[REMBILUNG_BETWEEN_NUMBERS];
    uint64_t told = rembilung_between(sheet, REMBILUNG_SHEET_BYTES, job_j, job_j, answer);
    return told == REMBILUNG_BETWEEN_NUMBERS && answer[10] == REMBILUNG_FAILS_THROUGHOUT &&
           answer[0] == REMBILUNG_PASSES_THROUGHOUT && answer[REMBILUNG_BETWEEN_HARSH_HEIGHT] != REMBILUNG_NONE;
}

/* Of two rows the second is J, which fails check 11 under any sheet; a book of no bytes has no rows. */
static bool failing_row_is_found(const uint8_t sheet[REMBILUNG_SHEET_BYTES]) {
    static uint8_t book[REMBILUNG_BOOK_MOST];
    static uint32_t rows[REMBILUNG_NUMBERS_OF(2)];
    uint32_t first[REMBILUNG_FIRST_FAILING_NUMBERS], none[REMBILUNG_FIRST_FAILING_NUMBERS];
    for (size_t k = 0; k < REMBILUNG_NUMBERS_OF(2); k++)
        rows[k] = job_j[k % REMBILUNG_NUMBERS];
    rows[REMBILUNG_GROUND_STRENGTH] = 201;
    uint64_t made = rembilung_write_book(rows, REMBILUNG_NUMBERS_OF(2), book, sizeof book);
    uint64_t found = rembilung_first_failing(sheet, REMBILUNG_SHEET_BYTES, book, (size_t)made, first);
    return found == REMBILUNG_FIRST_FAILING_NUMBERS && first[REMBILUNG_FIRST_FAILING_ROW] == 1 &&
           first[REMBILUNG_FIRST_FAILING_JUDGED] == 2 &&
           rembilung_first_failing(sheet, REMBILUNG_SHEET_BYTES, book, 0, none) == REMBILUNG_FIRST_FAILING_NUMBERS &&
           none[REMBILUNG_FIRST_FAILING_ROW] == REMBILUNG_NONE && none[REMBILUNG_FIRST_FAILING_JUDGED] == 0;
}

/* A push of 2.5 N counts as 3. */
static bool cells_are_worked_out() {
    static const uint8_t record[REMBILUNG_CELL_RECORD] = {REMBILUNG_CELL_PUSH, 0, 0, 0, 0, 0, 0x20, 0x40};
    static uint8_t out[REMBILUNG_CELL_OUTPUT_MOST];
    uint64_t done = rembilung_cells(record, sizeof record, REMBILUNG_CELL_W_MOST, out, sizeof out);
    return done == 4 && out[0] == 3 && out[1] == 0 && out[2] == 0 && out[3] == 0;
}

int main() {
    uint8_t sheet[REMBILUNG_SHEET_BYTES], file[REMBILUNG_FILE_MOST], report[REMBILUNG_REPORT_MOST];
    uint32_t numbers[REMBILUNG_NUMBERS];
    for (int k = 0; k < REMBILUNG_SHEET_BYTES; k++)
        sheet[k] = k % 2 == 0 ? 0xE8 : 0x03;
    uint64_t made = rembilung_write_job(job_j, file, sizeof file);
    if (rembilung_refused(made) || rembilung_read_job(file, (size_t)made, numbers) != REMBILUNG_NUMBERS)
        return 1;
    uint64_t done = rembilung_verdict(sheet, sizeof sheet, file, (size_t)made, report, sizeof report);
    bool judged = rembilung_refusal(done) == 0 && rembilung_place(done) == done;
    return numbers[REMBILUNG_PAD_AREA] == 2000 && judged && support_goes_round() && book_goes_round() &&
                   ends_are_told(sheet) && failing_row_is_found(sheet) && cells_are_worked_out()
               ? 0
               : 1;
}
