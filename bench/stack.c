/* Measures the greatest stack depth of each exported call: on a painted stack, over the inputs and many random jobs. */
#include <stdio.h>
#include <string.h>

#include "books.h"
#include "cells.h"
#include "failing.h"
#include "pairs.h"
#include "vary.h"

#ifndef __x86_64__
#error "the stack is switched by x86-64 instructions; measure another processor by its own means"
#endif

enum { ROOM = 16384, RANDOM = 20000, RANDOM_BOOKS = 2000, RANDOM_RUNS = 2000 };
enum { VERDICT, WRITE_JOB, READ_JOB, WRITE_SUPPORT, WRITE_BOOK, READ_BOOK, BETWEEN, CELLS, FIRST_FAILING, CALLS };
/* A number that no field takes is longer than any that a book has. */
enum { ROWS_MOST = REMBILUNG_BOOK_ROWS_MOST, BOOK_ROOM = REMBILUNG_BOOK_MOST + 8 };

static _Alignas(16) uint8_t stack[ROOM];

/* A call, over how many inputs it was measured, how deep it went, and in which of them. */
typedef struct {
    const char *call;
    int inputs;
    size_t deepest;
    const char *where;
} Depth;

static Depth depths[CALLS] = {
    [VERDICT] = {"rembilung_verdict", 0, 0, ""},       [WRITE_JOB] = {"rembilung_write_job", 0, 0, ""},
    [READ_JOB] = {"rembilung_read_job", 0, 0, ""},     [WRITE_SUPPORT] = {"rembilung_write_support", 0, 0, ""},
    [WRITE_BOOK] = {"rembilung_write_book", 0, 0, ""}, [READ_BOOK] = {"rembilung_read_book", 0, 0, ""},
    [BETWEEN] = {"rembilung_between", 0, 0, ""},       [CELLS] = {"rembilung_cells", 0, 0, ""},
    [FIRST_FAILING] = {"rembilung_first_failing", 0, 0, ""},
};

/* Calls a function of up to six arguments on the painted stack; its return address is the first thing there. */
static uint64_t call_there(const void *function, const uint64_t argument[6]) {
    register uint64_t r8 __asm__("r8") = argument[4], r9 __asm__("r9") = argument[5];
    uint64_t result, a = argument[0], b = argument[1], c = argument[2], d = argument[3];
    __asm__ volatile("mov %%rsp, %%rbx\n\tmov %[top], %%rsp\n\tcall *%[function]\n\tmov %%rbx, %%rsp"
                     : "=a"(result), "+D"(a), "+S"(b), "+d"(c), "+c"(d), "+r"(r8), "+r"(r9)
                     : [top] "r"(stack + ROOM), [function] "r"(function)
                     : "rbx", "r10", "r11", "memory", "cc", "xmm0", "xmm1", "xmm2", "xmm3", "xmm4", "xmm5", "xmm6", "xmm7",
                       "xmm8", "xmm9", "xmm10", "xmm11", "xmm12", "xmm13", "xmm14", "xmm15");
    return result;
}

/* Two colours, since a byte may be written with the value of one. */
static size_t depth_of(const void *function, const uint64_t argument[6]) {
    static const int colours[] = {0xA5, 0x5A};
    size_t deepest = 0;
    for (int c = 0; c < 2; c++) {
        memset(stack, colours[c], ROOM);
        call_there(function, argument);
        size_t at = 0;
        while (at < ROOM && stack[at] == colours[c])
            at++;
        deepest = ROOM - at > deepest ? ROOM - at : deepest;
    }
    return deepest;
}

static void keep(int call, size_t depth, const char *where) {
    depths[call].inputs++;
    if (depth > depths[call].deepest)
        depths[call] = (Depth){depths[call].call, depths[call].inputs, depth, where};
}

static void measure(const Input *in, size_t buffer, const char *where) {
    uint8_t report[REMBILUNG_REPORT_MOST];
    uint32_t numbers[REMBILUNG_NUMBERS];
    const uint64_t verdict[6] = {(uintptr_t)in->sheet, in->sheet_len,     (uintptr_t)in->file,
                                 in->file_len,         (uintptr_t)report, in->report_len};
    const uint64_t write[6] = {(uintptr_t)in->numbers, (uintptr_t)report, buffer};
    const uint64_t read[6] = {(uintptr_t)in->file, in->file_len, (uintptr_t)numbers};
    keep(VERDICT, depth_of((const void *)(uintptr_t)rembilung_verdict, verdict), where);
    keep(WRITE_JOB, depth_of((const void *)(uintptr_t)rembilung_write_job, write), where);
    keep(READ_JOB, depth_of((const void *)(uintptr_t)rembilung_read_job, read), where);
    keep(WRITE_SUPPORT, depth_of((const void *)(uintptr_t)rembilung_write_support, write), where);
}

static void measure_random(void (*any)(uint32_t *numbers), const char *where) {
    static Input in;
    for (int k = 0; k < RANDOM; k++) {
        any(in.numbers);
        in.sheet = sheet_number((int)from_to(0, SHEETS - 1));
        in.sheet_len = REMBILUNG_SHEET_BYTES;
        in.file_len = pack(in.numbers, in.file);
        in.report_len = from_to(0, 9) == 0 ? from_to(0, REMBILUNG_REPORT_MOST) : REMBILUNG_REPORT_MOST;
        measure(&in, from_to(0, 1) == 0 ? REMBILUNG_FILE_MOST : from_to(0, REMBILUNG_FILE_MOST), where);
    }
}

static void measure_writing(const BookInput *in, const char *where) {
    static uint8_t book[BOOK_ROOM];
    const uint64_t arguments[6] = {(uintptr_t)in->rows, in->numbers, (uintptr_t)book, in->book_len};
    keep(WRITE_BOOK, depth_of((const void *)(uintptr_t)rembilung_write_book, arguments), where);
}

static void measure_reading(const BookInput *in, const char *where) {
    static uint32_t rows[REMBILUNG_NUMBERS * ROWS_MOST];
    const uint64_t arguments[6] = {(uintptr_t)in->book, in->book_len, (uintptr_t)rows, in->numbers};
    keep(READ_BOOK, depth_of((const void *)(uintptr_t)rembilung_read_book, arguments), where);
}

static void measure_first_failing(const uint8_t *sheet, size_t sheet_len, const BookInput *in, const char *where) {
    uint32_t answer[REMBILUNG_FIRST_FAILING_NUMBERS];
    const uint64_t arguments[6] = {(uintptr_t)sheet, sheet_len, (uintptr_t)in->book, in->book_len, (uintptr_t)answer};
    keep(FIRST_FAILING, depth_of((const void *)(uintptr_t)rembilung_first_failing, arguments), where);
}

static void random_rows(uint32_t *rows, size_t count) {
    for (size_t r = 0; r < count; r++)
        any_job(rows + REMBILUNG_NUMBERS_OF(r));
}

/* One of four has a number that no field takes, and one of four is cut. */
static void measure_random_book(void) {
    static uint32_t rows[REMBILUNG_NUMBERS * ROWS_MOST];
    static uint8_t book[BOOK_ROOM];
    size_t count = from_to(0, ROWS_MOST), numbers = REMBILUNG_NUMBERS_OF(count);
    random_rows(rows, count);
    if (count > 0 && from_to(0, 3) == 0)
        rows[from_to(0, (uint32_t)numbers - 1)] = from_to(100001, 4000000000u);
    size_t length = pack_book(rows, count, book);
    length = from_to(0, 3) == 0 ? from_to(0, (uint32_t)length) : length;
    const BookInput in = {rows, numbers, book, length};
    measure_writing(&in, "random and limit books");
    measure_reading(&in, "random and limit books");
    measure_first_failing(sheet_number((int)from_to(0, SHEETS - 1)), REMBILUNG_SHEET_BYTES, &in, "random and limit books");
}

static void measure_inputs(void) {
    for (int k = 0; k < CLASSES * PER_CLASS; k++)
        measure(&inputs[k / PER_CLASS][k % PER_CLASS], k % PER_CLASS % (REMBILUNG_FILE_MOST + 1), classes[k / PER_CLASS].name);
}

/* A class is named after the call that it is for, and goes to that one alone. */
static void measure_books(int class) {
    void (*measure_one)(const BookInput *, const char *) = book_classes[class].writes ? measure_writing : measure_reading;
    for (int k = 0; k < book_classes[class].count; k++)
        measure_one(&books[class][k], book_classes[class].name);
}

static void measure_failing(int class) {
    for (int k = 0; k < failing_classes[class].count; k++) {
        const FailingInput *in = &failing[class][k];
        measure_first_failing(in->sheet, REMBILUNG_SHEET_BYTES, &in->book, failing_classes[class].name);
    }
}

/* Every bad sheet of the whole calls too, before a book of one row. */
static void measure_all_failing(void) {
    for (int class = 0; class < FAILING_CLASSES; class++)
        measure_failing(class);
    for (int k = 0; k < CLASSES * PER_CLASS; k++) {
        const Input *in = &inputs[k / PER_CLASS][k % PER_CLASS];
        measure_first_failing(in->sheet, in->sheet_len, &failing[ONE_ROW][0].book, classes[k / PER_CLASS].name);
    }
}

static void measure_all_books(void) {
    for (int class = 0; class < BOOK_CLASSES; class++)
        measure_books(class);
    for (int k = 0; k < RANDOM_BOOKS; k++)
        measure_random_book();
}

static void measure_pair(const uint8_t *sheet, size_t sheet_len, const uint32_t *mild, const uint32_t *harsh, const char *where) {
    uint32_t answer[REMBILUNG_BETWEEN_NUMBERS];
    const uint64_t arguments[6] = {(uintptr_t)sheet, sheet_len, (uintptr_t)mild, (uintptr_t)harsh, (uintptr_t)answer};
    keep(BETWEEN, depth_of((const void *)(uintptr_t)rembilung_between, arguments), where);
}

/* Half of them are any two jobs, which mostly are no mild and harsh one. */
static void measure_random_pair(void) {
    uint32_t mild[REMBILUNG_NUMBERS], harsh[REMBILUNG_NUMBERS];
    any_job(mild);
    any_job(harsh);
    if (from_to(0, 1) == 0)
        make_harsh(mild, harsh);
    measure_pair(sheet_number((int)from_to(0, SHEETS - 1)), REMBILUNG_SHEET_BYTES, mild, harsh, "random and limit pairs");
}

static void measure_pairs(void) {
    for (int k = 0; k < PAIR_CLASSES * PAIRS; k++) {
        const PairInput *in = &pairs[k / PAIRS][k % PAIRS];
        measure_pair(in->sheet, in->sheet_len, in->mild, in->harsh, pair_classes[k / PAIRS].name);
    }
    /* Every bad sheet of the whole calls too. */
    for (int k = 0; k < CLASSES * PER_CLASS; k++) {
        const Input *in = &inputs[k / PER_CLASS][k % PER_CLASS];
        measure_pair(in->sheet, in->sheet_len, in->numbers, in->numbers, classes[k / PER_CLASS].name);
    }
    for (int k = 0; k < RANDOM; k++)
        measure_random_pair();
}

static void measure_run(const CellInput *in, const char *where) {
    static uint8_t out[REMBILUNG_CELL_OUTPUT_MOST];
    const uint64_t arguments[6] = {(uintptr_t)in->records, in->records_len, in->w, (uintptr_t)out, in->out_len};
    keep(CELLS, depth_of((const void *)(uintptr_t)rembilung_cells, arguments), where);
}

static void random_records(uint8_t *records, size_t count) {
    for (size_t k = 0; k < count; k++) {
        uint32_t kind = from_to(REMBILUNG_CELL_PUSH, REMBILUNG_CELL_SILENT);
        put_record(records + REMBILUNG_CELL_RECORD * k, kind,
                   kind == REMBILUNG_CELL_SILENT ? 0 : half_newtons(from_to(0, 200000)));
    }
}

/* One of four has a record of no kind, one of eight is cut within a record, and one of four has too little room. */
static void measure_random_run(void) {
    static uint8_t records[CELL_RUN_BYTES];
    uint32_t count = from_to(1, REMBILUNG_CELL_RECORDS_MOST);
    CellInput in = {records, REMBILUNG_CELL_RECORD * count, from_to(0, REMBILUNG_CELL_W_MOST + 1), 4 * count};
    random_records(records, count);
    if (from_to(0, 3) == 0)
        records[REMBILUNG_CELL_RECORD * from_to(0, count - 1)] = 0;
    if (from_to(0, 7) == 0)
        in.records_len -= from_to(1, REMBILUNG_CELL_RECORD - 1);
    if (from_to(0, 3) == 0)
        in.out_len = from_to(0, 4 * count - 1);
    measure_run(&in, "random runs");
}

static void measure_cells(void) {
    for (int k = 0; k < CELL_CLASSES * CELL_RUNS; k++)
        measure_run(&cells[k / CELL_RUNS][k % CELL_RUNS], cell_classes[k / CELL_RUNS].name);
    for (int k = 0; k < RANDOM_RUNS; k++)
        measure_random_run();
}

int main(void) {
    make_inputs();
    make_books();
    make_pairs();
    make_cells();
    make_failing();
    measure_inputs();
    measure_random(any_job, "random and limit jobs");
    measure_random(any_support, "random and limit supports");
    measure_all_books();
    measure_all_failing();
    measure_pairs();
    measure_cells();
    for (int c = 0; c < CALLS; c++)
        printf("%s;%zu;%s;%d\n", depths[c].call, depths[c].deepest, depths[c].where, depths[c].inputs);
    return 0;
}
