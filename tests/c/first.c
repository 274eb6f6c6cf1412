/* The first failing row of a book: every number of rows, every place, each check failing by itself, under three sheets. */
#include <string.h>

#include "check.h"
#include "failing.h"
#include "parts.h"
#include "reported.h"

enum { MOST = REMBILUNG_BOOK_ROWS_MOST, CHANGES = 5 };

typedef struct {
    int field;
    uint32_t number;
} Change;

/* A job with some fields at other numbers, and the verdicts of its report under sheet T, by hand. */
typedef struct {
    const char *verdicts;
    const uint32_t *job;
    Change changes[CHANGES];
} Known;

/* Jobs that pass; then one for each check that fails, where it can by itself, and else with as few more as can be: a deflection
 * is too great only where a moment is too, and a pole that does not bear stands too high. */
enum { KNOWN = 20 };
static const Known known[KNOWN] = {
    {"111111101111", job_j, {{24, 201}}},
    {"111111101111", job_j, {{7, 1000}, {24, 300}}},
    {"111111101111", job_j, {{1, 2}, {3, 120}, {7, 500}, {24, 300}}},
    {"111111101111", job_j, {{22, 100000}, {23, 5}, {24, 2000}, {25, 10000}}},
    {"111111101111", job_j, {{5, 60}, {7, 5000}, {14, 500}, {25, 10000}}},
    {"111111111111", job_j, {{7, 500}, {15, 351}, {17, 3}, {22, 100000}, {24, 300}}},
    {"211111101111", job_j, {{3, 155}, {7, 500}, {11, 3010}, {24, 300}}}, /* moment 1,043,736 of 1,041,400 N mm */
    {"221121101111", job_j, {{3, 155}, {4, 70}, {7, 1000}, {11, 10000}, {12, 10000}}},
    {"112111101111", job_j, {{4, 200}, {7, 1000}, {11, 3100}, {24, 300}}}, /* moment 1,047,816 of 1,041,400 N mm */
    {"112211101111", job_j, {{4, 200}, {7, 1000}, {11, 3500}, {24, 300}}}, /* deflection 10.12 of 10 mm */
    {"111121101111", job_j, {{4, 95}, {7, 1000}, {11, 10000}, {12, 10000}, {24, 300}}}, /* slip 8,255 of 8,000 N */
    {"111112101111", job_j, {{5, 200}, {6, 3}, {7, 1000}, {24, 300}}}, /* 215.2 of 210 */
    {"111111201112", job_j, {{7, 3278}, {24, 300}}}, /* force 21,094 of 21,091 N */
    {"111111121112", job_j, {{15, 351}, {16, 4000}, {22, 100000}, {24, 300}}}, /* force 19,030 of 18,784 N */
    {"111111102111", job_j, {{15, 350}, {16, 4000}, {24, 300}}}, /* tie force 9,446 of 8,000 N */
    {"111111101211", job_j, {{5, 60}, {7, 5000}, {13, 5000}, {14, 500}, {25, 10000}}}, /* force 45,293 of 40,000 N */
    {"111111101121", job_j, {{0, 0}}}, /* force 20,093 of 20,000 N */
    {"111111101112", job_j, {{7, 3174}, {24, 300}}}, /* height 3,174 of 3,173 cm */
    {"112121221222", single_job, {{0, 0}}},
    {"222222222212", longest_job, {{0, 0}}},
};

/* The numbers of each, and whether its report under the sheet at hand shows a failed check. */
static uint32_t jobs[KNOWN][REMBILUNG_NUMBERS];
static int failed[KNOWN];
static Sheet sheet;
static const char *sheet_name;

/* The rows of a book, by their places in the table. */
static uint8_t which[MOST];

static void put_known(size_t k) {
    memcpy(jobs[k], known[k].job, sizeof jobs[k]);
    for (const Change *change = known[k].changes; change < known[k].changes + CHANGES && change->field != 0; change++)
        jobs[k][change->field - 1] = change->number;
}

static void as_by_hand(size_t k) {
    case_begins("known job %zu under sheet T", k);
    Reported found = reported(sheet_bytes(&sheet), jobs[k]);
    for (int c = 0; c < REMBILUNG_CHECKS; c++)
        if (found.verdicts[c] != (unsigned)(known[k].verdicts[c] - '0'))
            differs("check %d is %u, and %c is due", c + 1, found.verdicts[c], known[k].verdicts[c]);
}

static void under(const char *name, Sheet of) {
    sheet = of;
    sheet_name = name;
    case_begins("known jobs under %s", name);
    for (size_t k = 0; k < KNOWN; k++)
        failed[k] = row_fails(sheet_bytes(&sheet), jobs[k]);
}

/* The first known job at this place or behind it, round about, that fails under the sheet at hand or does not. */
static uint8_t next_known(int fails, size_t from) {
    size_t k = from % KNOWN;
    while (failed[k] != fails)
        k = (k + 1) % KNOWN;
    return (uint8_t)k;
}

static Answer due_of(size_t count) {
    uint32_t row = 0;
    while (row < count && !failed[which[row]])
        row++;
    return row < count ? fails_first_at(row) : none_fails_of((uint32_t)count);
}

static void judged(size_t count) {
    static uint32_t rows[REMBILUNG_NUMBERS_OF(MOST)];
    static Book book;
    for (size_t r = 0; r < count; r++)
        memcpy(rows + REMBILUNG_NUMBERS_OF(r), jobs[which[r]], sizeof jobs[0]);
    make_book(&book, rows, count);
    expect_first_failing(sheet_bytes(&sheet), book_bytes(&book), due_of(count));
}

/* Rows from first to before end, all of which fail or none. */
static void put_rows(int fails, size_t first, size_t end) {
    for (size_t r = first; r < end; r++)
        which[r] = next_known(fails, 7 * r);
}

/* Another failing job at every place, so that each of them comes first in some book. */
static void failing_at(size_t count, size_t place) {
    case_begins("%zu rows under %s, row %zu alone fails", count, sheet_name, place);
    put_rows(0, 0, count);
    which[place] = next_known(1, place);
    judged(count);
}

static void failing_from(size_t count, size_t place) {
    case_begins("%zu rows under %s, row %zu and all behind it fail", count, sheet_name, place);
    put_rows(0, 0, place);
    put_rows(1, place, count);
    judged(count);
}

static void none_failing(size_t count) {
    case_begins("%zu rows under %s, none fails", count, sheet_name);
    put_rows(0, 0, count);
    judged(count);
}

static void every_place(size_t count) {
    for (size_t place = 0; place < count; place++) {
        failing_at(count, place);
        failing_from(count, place);
    }
}

static void every_count(void) {
    for (size_t count = 0; count <= MOST; count++) {
        none_failing(count);
        if (count > 0)
            failing_at(count, count - 1);
    }
}

static void every_two(void) {
    for (size_t k = 0; k < KNOWN * KNOWN; k++) {
        which[0] = (uint8_t)(k / KNOWN);
        which[1] = (uint8_t)(k % KNOWN);
        case_begins("known jobs %d and %d in a book under %s", which[0], which[1], sheet_name);
        judged(2);
    }
}

/* A season with no rows, of no bytes and of one. */
static void empty(void) {
    static const uint8_t no_rows[] = {0x00};
    case_begins("books of no rows under %s", sheet_name);
    expect_first_failing(sheet_bytes(&sheet), (Bytes){no_rows, 0}, none_fails_of(0));
    expect_first_failing(sheet_bytes(&sheet), (Bytes){no_rows, 1}, none_fails_of(0));
}

static void under_any_sheet(const char *name, Sheet of) {
    under(name, of);
    empty();
    every_two();
    every_place(1);
    every_place(2);
    every_place(3);
    every_place(20);
}

/* The whole sheet at one factor. */
static Sheet level(uint32_t thousandths) {
    Sheet of;
    for (int k = 0; k <= 250; k++)
        set_entry(&of, k, thousandths);
    return of;
}

/* What the header has in numbers and places. */
static void names(void) {
    case_begins("the header's numbers of the first failing row");
    if (REMBILUNG_FIRST_FAILING_NUMBERS != 2 || REMBILUNG_FIRST_FAILING_ROW != 0 || REMBILUNG_FIRST_FAILING_JUDGED != 1)
        differs("they are not those of document 02");
}

void test_first(void) {
    names();
    for (size_t k = 0; k < KNOWN; k++)
        put_known(k);
    under_any_sheet("factors of 1000", level(1000));
    under_any_sheet("factors of 117", level(117));
    under_any_sheet("sheet T", sheet_t());
    for (size_t k = 0; k < KNOWN; k++)
        as_by_hand(k);
    every_count();
    every_place(MOST);
}
