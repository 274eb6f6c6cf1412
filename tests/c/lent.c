/* Calls of the library with every buffer lent between guards, held to the answer that is due. */
#define _DEFAULT_SOURCE
#include "lent.h"

#include <inttypes.h>
#include <stdio.h>
#include <stdlib.h>
#include <string.h>
#include <sys/mman.h>

#include "check.h"
#include "rembilung.h"

const Kind scaffold = {REMBILUNG_NUMBERS, REMBILUNG_FILE_MOST, REMBILUNG_REPORT_MOST, "write_job", rembilung_write_job};
const Kind support = {REMBILUNG_SUPPORT_NUMBERS, REMBILUNG_SUPPORT_FILE_MOST, REMBILUNG_SUPPORT_REPORT_MOST, "write_support",
                      rembilung_write_support};

/* Four ways to lend: against the protected page before or behind, and with two marks, so that no written byte passes for one. */
enum { WAYS = 4 };

/* Room between two pages that may not be touched; whatever of it is not lent holds the mark. */
typedef struct {
    const char *name;
    size_t size;
    uint8_t *room;
    uint8_t *at;
    uint8_t mark;
} Pen;

enum { PAGE = LENT_MOST };

/* Most books and runs are short, and a short room is marked and looked through sooner. */
enum {
    SHEET,
    JOB_FILE,
    REPORT,
    NUMBERS,
    HARSH,
    ANSWER,
    SHORT_BOOK,
    LONG_BOOK,
    SHORT_ROWS,
    LONG_ROWS,
    SHORT_RECORDS,
    LONG_RECORDS,
    SHORT_OUTPUT,
    LONG_OUTPUT,
    PENS
};

static Pen pens[PENS] = {
    [SHEET] = {"sheet", LENT_MOST, NULL, NULL, 0},
    [JOB_FILE] = {"job file", LENT_MOST, NULL, NULL, 0},
    [REPORT] = {"report", LENT_MOST, NULL, NULL, 0},
    [NUMBERS] = {"numbers", LENT_MOST, NULL, NULL, 0},
    [HARSH] = {"harsh job", LENT_MOST, NULL, NULL, 0},
    [ANSWER] = {"answer", LENT_MOST, NULL, NULL, 0},
    [SHORT_BOOK] = {"book", LENT_MOST, NULL, NULL, 0},
    [LONG_BOOK] = {"book", BOOK_LENT_MOST, NULL, NULL, 0},
    [SHORT_ROWS] = {"rows", LENT_MOST, NULL, NULL, 0},
    [LONG_ROWS] = {"rows", ROWS_LENT_MOST, NULL, NULL, 0},
    [SHORT_RECORDS] = {"records", LENT_MOST, NULL, NULL, 0},
    [LONG_RECORDS] = {"records", RECORDS_LENT_MOST, NULL, NULL, 0},
    [SHORT_OUTPUT] = {"output", LENT_MOST, NULL, NULL, 0},
    [LONG_OUTPUT] = {"output", OUTPUT_LENT_MOST, NULL, NULL, 0},
};

static void make_pen(Pen *pen) {
    uint8_t *pages = mmap(NULL, pen->size + 2 * PAGE, PROT_NONE, MAP_PRIVATE | MAP_ANONYMOUS, -1, 0);
    if (pages == MAP_FAILED || mprotect(pages + PAGE, pen->size, PROT_READ | PROT_WRITE) != 0) {
        perror("no guarded memory");
        exit(2);
    }
    pen->room = pages + PAGE;
}

void make_pens(void) {
    for (int k = 0; k < PENS; k++)
        make_pen(&pens[k]);
}

/* The shorter of two pens that has room for the length; a length for neither is a fault of the tests. */
static Pen *pen_for(int shorter, int longer, size_t length) {
    if (length > pens[longer].size) {
        fprintf(stderr, "tests/c: no room for %zu bytes of %s\n", length, pens[longer].name);
        exit(2);
    }
    return &pens[length <= pens[shorter].size ? shorter : longer];
}

static void lend(Pen *pen, Bytes content, size_t length, int way) {
    pen->mark = way < 2 ? 0x5A : 0xA5;
    memset(pen->room, pen->mark, pen->size);
    pen->at = way % 2 == 0 ? pen->room : pen->room + pen->size - length;
    if (content.length > 0)
        memcpy(pen->at, content.at, content.length);
}

/* The buffer begins with what is due, and all else of the room, beyond it and around it, is as it was. */
static void holds(const Pen *pen, Bytes due) {
    static uint8_t expected[RECORDS_LENT_MOST];
    long start = pen->at - pen->room, k = 0;
    memset(expected, pen->mark, pen->size);
    if (due.length > 0)
        memcpy(expected + start, due.at, due.length);
    if (memcmp(pen->room, expected, pen->size) == 0)
        return;
    while (pen->room[k] == expected[k])
        k++;
    differs("%s: byte %ld is %02x, and %02x is due (hexadecimal)", pen->name, k - start, pen->room[k], expected[k]);
}

Answer refused(uint32_t refusal, uint32_t place) {
    return (Answer){refusal, place, {NULL, 0}};
}

Answer gives(uint32_t length, Bytes written) {
    return (Answer){0, length, written};
}

Answer due_in(Answer due, size_t length) {
    return due.refusal == 0 && length < due.place ? refused(8, due.place) : due;
}

void result_is(uint64_t result, Answer due) {
    if (result != due.refusal * UINT64_C(4294967296) + due.place)
        differs("returned refusal %" PRIu64 " with %" PRIu64 ", and refusal %" PRIu32 " with %" PRIu32 " is due",
                result / UINT64_C(4294967296), result % UINT64_C(4294967296), due.refusal, due.place);
    else if (rembilung_refused(result) != (due.refusal != 0) || rembilung_refusal(result) != due.refusal ||
             rembilung_place(result) != due.place)
        differs("the header's functions take %" PRIu64 " apart as %d, %" PRIu32 ", %" PRIu32, result,
                rembilung_refused(result), rembilung_refusal(result), rembilung_place(result));
}

void expect_verdict(Bytes sheet, Bytes file, size_t report_length, Answer due) {
    for (int way = 0; way < WAYS; way++) {
        lend(&pens[SHEET], sheet, sheet.length, way);
        lend(&pens[JOB_FILE], file, file.length, way);
        lend(&pens[REPORT], (Bytes){NULL, 0}, report_length, way);
        result_is(rembilung_verdict(pens[SHEET].at, sheet.length, pens[JOB_FILE].at, file.length, pens[REPORT].at,
                                    report_length), due);
        holds(&pens[SHEET], sheet);
        holds(&pens[JOB_FILE], file);
        holds(&pens[REPORT], due.written);
    }
}

void expect_write(const Kind *kind, const uint32_t *numbers, size_t file_length, Answer due) {
    Bytes given = {numbers, kind->count * sizeof *numbers};
    for (int way = 0; way < WAYS; way++) {
        lend(&pens[NUMBERS], given, given.length, way);
        lend(&pens[JOB_FILE], (Bytes){NULL, 0}, file_length, way);
        result_is(kind->write((const uint32_t *)pens[NUMBERS].at, pens[JOB_FILE].at, file_length), due);
        holds(&pens[NUMBERS], given);
        holds(&pens[JOB_FILE], due.written);
    }
}

void expect_read(Bytes file, Answer due) {
    for (int way = 0; way < WAYS; way++) {
        lend(&pens[JOB_FILE], file, file.length, way);
        lend(&pens[NUMBERS], (Bytes){NULL, 0}, REMBILUNG_NUMBERS * sizeof(uint32_t), way);
        result_is(rembilung_read_job(pens[JOB_FILE].at, file.length, (uint32_t *)pens[NUMBERS].at), due);
        holds(&pens[JOB_FILE], file);
        holds(&pens[NUMBERS], due.written);
    }
}

void expect_write_book(Bytes rows, size_t numbers, size_t book_length, Answer due) {
    Pen *from = pen_for(SHORT_ROWS, LONG_ROWS, numbers * sizeof(uint32_t));
    Pen *to = pen_for(SHORT_BOOK, LONG_BOOK, book_length);
    for (int way = 0; way < WAYS; way++) {
        lend(from, rows, rows.length, way);
        lend(to, (Bytes){NULL, 0}, book_length, way);
        result_is(rembilung_write_book((const uint32_t *)from->at, numbers, to->at, book_length), due);
        holds(from, rows);
        holds(to, due.written);
    }
}

void expect_read_book(Bytes book, size_t numbers, Answer due) {
    Pen *from = pen_for(SHORT_BOOK, LONG_BOOK, book.length);
    Pen *to = pen_for(SHORT_ROWS, LONG_ROWS, numbers * sizeof(uint32_t));
    size_t whole = REMBILUNG_NUMBERS_OF(numbers / REMBILUNG_NUMBERS) * sizeof(uint32_t);
    for (int way = 0; way < WAYS; way++) {
        lend(from, book, book.length, way);
        lend(to, (Bytes){NULL, 0}, whole, way);
        result_is(rembilung_read_book(from->at, book.length, (uint32_t *)to->at, numbers), due);
        holds(from, book);
        holds(to, due.written);
    }
}

void expect_between(Bytes sheet, const uint32_t *mild, const uint32_t *harsh, Answer due) {
    Bytes mild_bytes = {mild, REMBILUNG_NUMBERS * sizeof *mild}, harsh_bytes = {harsh, REMBILUNG_NUMBERS * sizeof *harsh};
    for (int way = 0; way < WAYS; way++) {
        lend(&pens[SHEET], sheet, sheet.length, way);
        lend(&pens[NUMBERS], mild_bytes, mild_bytes.length, way);
        lend(&pens[HARSH], harsh_bytes, harsh_bytes.length, way);
        lend(&pens[ANSWER], (Bytes){NULL, 0}, REMBILUNG_BETWEEN_NUMBERS * sizeof(uint32_t), way);
        result_is(rembilung_between(pens[SHEET].at, sheet.length, (const uint32_t *)pens[NUMBERS].at,
                                    (const uint32_t *)pens[HARSH].at, (uint32_t *)pens[ANSWER].at), due);
        holds(&pens[SHEET], sheet);
        holds(&pens[NUMBERS], mild_bytes);
        holds(&pens[HARSH], harsh_bytes);
        holds(&pens[ANSWER], due.written);
    }
}

void expect_cells(Bytes records, uint32_t w, size_t room, Answer due) {
    Pen *from = pen_for(SHORT_RECORDS, LONG_RECORDS, records.length);
    Pen *to = pen_for(SHORT_OUTPUT, LONG_OUTPUT, room);
    for (int way = 0; way < WAYS; way++) {
        lend(from, records, records.length, way);
        lend(to, (Bytes){NULL, 0}, room, way);
        result_is(rembilung_cells(from->at, records.length, w, to->at, room), due);
        holds(from, records);
        holds(to, due.written);
    }
}

void expect_first_failing(Bytes sheet, Bytes book, Answer due) {
    Pen *from = pen_for(SHORT_BOOK, LONG_BOOK, book.length);
    for (int way = 0; way < WAYS; way++) {
        lend(&pens[SHEET], sheet, sheet.length, way);
        lend(from, book, book.length, way);
        lend(&pens[ANSWER], (Bytes){NULL, 0}, REMBILUNG_FIRST_FAILING_NUMBERS * sizeof(uint32_t), way);
        result_is(rembilung_first_failing(pens[SHEET].at, sheet.length, from->at, book.length, (uint32_t *)pens[ANSWER].at), due);
        holds(&pens[SHEET], sheet);
        holds(from, book);
        holds(&pens[ANSWER], due.written);
    }
}

size_t expect_judged(Bytes sheet, Bytes file, uint8_t *report) {
    lend(&pens[SHEET], sheet, sheet.length, 1);
    lend(&pens[JOB_FILE], file, file.length, 1);
    lend(&pens[REPORT], (Bytes){NULL, 0}, REMBILUNG_REPORT_MOST, 1);
    uint64_t result = rembilung_verdict(pens[SHEET].at, sheet.length, pens[JOB_FILE].at, file.length, pens[REPORT].at,
                                        REMBILUNG_REPORT_MOST);
    if (rembilung_refused(result) || result > REMBILUNG_REPORT_MOST) {
        differs("returned refusal %" PRIu32 " with %" PRIu32 ", and a report is due", rembilung_refusal(result),
                rembilung_place(result));
        return 0;
    }
    memcpy(report, pens[REPORT].at, (size_t)result);
    holds(&pens[SHEET], sheet);
    holds(&pens[JOB_FILE], file);
    holds(&pens[REPORT], (Bytes){report, (size_t)result});
    return (size_t)result;
}
