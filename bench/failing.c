/* Makes the inputs of the measurements on a book's first failing row: books of rows that pass under their sheet, but for one. */
#include "failing.h"

#include <string.h>

/* Rows are drawn from some that are known to pass and some that are known to fail, for each sheet. */
enum { DRAWN_FROM = 128 };

FailingInput *failing[FAILING_CLASSES];
static uint32_t known[2][GOOD_SHEETS][DRAWN_FROM][REMBILUNG_NUMBERS];

static void no_bytes(BookInput *to) {
    to->book_len = 0;
}

const FailingClass failing_classes[FAILING_CLASSES] = {
    [NONE_FAILS] = {"none of 200 rows fails", 200, 16, REMBILUNG_NONE, leave_book},
    [ROW_0_FAILS] = {"row 0 of 200 fails", 200, 16, 0, leave_book},
    [ROW_100_FAILS] = {"row 100 of 200 fails", 200, 16, 100, leave_book},
    [NONE_OF_20_FAILS] = {"none of 20 rows fails", 20, 160, REMBILUNG_NONE, leave_book},
    [ONE_ROW] = {"one row, which passes", 1, 512, REMBILUNG_NONE, leave_book},
    [NO_BYTES] = {"a book of no bytes", 0, 512, REMBILUNG_NONE, no_bytes},
    [END_DAMAGED] = {"9 last number of 200 rows damaged", 200, 16, REMBILUNG_NONE, damage_end},
    [LAST_ROW_BAD] = {"11 last of 200 rows bad", 200, 16, REMBILUNG_NONE, spoil_last_row},
};

static const uint8_t *behind(const uint8_t *at, char byte) {
    while (*at++ != (uint8_t)byte)
        ;
    return at;
}

/* Whether one of the twelve lines of the library's report has a 2 behind its first space. */
static int fails(const uint8_t *sheet, const uint32_t *numbers) {
    uint8_t file[FILE_ROOM], report[REMBILUNG_REPORT_MOST];
    int failed = 0;
    rembilung_verdict(sheet, REMBILUNG_SHEET_BYTES, file, pack(numbers, file), report, sizeof report);
    const uint8_t *line = report;
    for (int check = 0; check < REMBILUNG_CHECKS; check++) {
        failed |= *behind(line, ' ') == '2';
        line = behind(line, '\n');
    }
    return failed;
}

/* Of random jobs about one of two has a failed check. */
static void draw_known(int failed, int sheet, uint32_t *numbers) {
    do
        random_job(from_to(0, 2) == 0 ? 2 : 1, numbers);
    while (fails(good_sheets[sheet], numbers) != failed);
}

static void draw_all_known(void) {
    for (int k = 0; k < 2 * GOOD_SHEETS * DRAWN_FROM; k++) {
        int failed = k % 2, sheet = k / 2 % GOOD_SHEETS;
        draw_known(failed, sheet, known[failed][sheet][k / 2 / GOOD_SHEETS]);
    }
}

static void put_row(FailingInput *to, uint32_t row, const uint32_t *numbers) {
    memcpy(to->book.rows + REMBILUNG_NUMBERS_OF(row), numbers, REMBILUNG_NUMBERS * sizeof *numbers);
    uint8_t file[FILE_ROOM];
    to->files[row].length = pack(numbers, file);
    memcpy(to->files[row].bytes, file, to->files[row].length);
}

static void make_one(const FailingClass *class, FailingInput *to) {
    uint32_t sheet = from_to(0, GOOD_SHEETS - 1);
    to->sheet = good_sheets[sheet];
    to->book = room_for_book(class->rows);
    to->fails = class->fails;
    to->files = room_of((size_t)class->rows * sizeof *to->files);
    for (uint32_t row = 0; row < (uint32_t)class->rows; row++)
        put_row(to, row, known[row == class->fails][sheet][from_to(0, DRAWN_FROM - 1)]);
    to->book.book_len = pack_book(to->book.rows, (size_t)class->rows, to->book.book);
    class->spoil(&to->book);
}

static void make_class(int class) {
    failing[class] = room_of((size_t)failing_classes[class].count * sizeof(FailingInput));
    for (int k = 0; k < failing_classes[class].count; k++)
        make_one(&failing_classes[class], &failing[class][k]);
}

void make_failing(void) {
    draw_all_known();
    for (int class = 0; class < FAILING_CLASSES; class++)
        make_class(class);
}
