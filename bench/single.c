/* Sends jobs one by one through an exported call, for the count of each call by itself: single CALL [step] < jobs.
 *
 * A line of jobs is a sheet's number (bench/vary.h) and the 25 numbers, or for write_support the 13. For a call on books it is
 * the number of rows, and the 25 numbers of each. For the call on two jobs the one job is both ends: what the call takes of two
 * ends is what it takes of each, and a job is accepted as the harsh end of itself. For the call on load cells it is the number
 * of records, w, and 25 records as numbers, which are sent over and over; for that on the first failing row the number of rows, a
 * sheet's number, and the 25 numbers of each row. With "step" each call's instructions are counted by the processor's step trap
 * and printed, the library's own and those of the memory functions. "single CALL inputs" sends every input of bench/inputs.c, of
 * bench/books.c, of bench/pairs.c, of bench/cells.c or of bench/failing.c instead, and prints its class, and its numbers and file
 * where it is a job. */
#define _GNU_SOURCE
#include <signal.h>
#include <stdio.h>
#include <stdlib.h>
#include <string.h>
#include <ucontext.h>

#include "books.h"
#include "cells.h"
#include "failing.h"
#include "pairs.h"
#include "vary.h"

#ifndef __x86_64__
#error "instructions are counted by the x86-64 trap flag; measure another processor by its own means"
#endif

enum { VERDICT, WRITE, READ, WRITE_SUPPORT, WRITE_BOOK, READ_BOOK, BETWEEN, CELLS, FIRST_FAILING, CALLS };
/* A number that no field takes may have five bytes. */
enum { ROWS_MOST = REMBILUNG_BOOK_ROWS_MOST, BOOK_ROOM = 5 * REMBILUNG_NUMBERS * ROWS_MOST + 2 };
/* A run has so many records, over and over. */
enum { CYCLE = 25 };

/* The memory functions stand in a section of their own; the linker knows its ends. */
extern const char __start_memory_functions[], __stop_memory_functions[];
extern const char after_call[] __asm__("after_call");

static volatile int counting;
static volatile uint64_t own, lent;
static uintptr_t entry;

/* The trap comes before every instruction of the call, and reports the place of that instruction. */
static void trapped(int signal, siginfo_t *info, void *context) {
    uintptr_t at = (uintptr_t)((ucontext_t *)context)->uc_mcontext.gregs[REG_RIP];
    (void)signal, (void)info;
    if (at == entry)
        counting = 1;
    if (at == (uintptr_t)after_call)
        counting = 0;
    if (counting && at >= (uintptr_t)__start_memory_functions && at < (uintptr_t)__stop_memory_functions)
        lent++;
    else if (counting)
        own++;
}

/* The step flag, 0x100, is set before the call and cleared after it; with 0 the call is left alone. */
__attribute__((noinline)) static void call_it(const void *function, const uint64_t argument[6], uint64_t flag) {
    register uint64_t r8 __asm__("r8") = argument[4], r9 __asm__("r9") = argument[5];
    uint64_t a = argument[0], b = argument[1], c = argument[2], d = argument[3];
    __asm__ volatile("mov %%rsp, %%rbx\n\tand $-16, %%rsp\n\tpushfq\n\tor %%rax, (%%rsp)\n\tpopfq\n\tcall *%[function]\n"
                     "after_call:\n\tpushfq\n\tandq $~0x100, (%%rsp)\n\tpopfq\n\tmov %%rbx, %%rsp"
                     : "+a"(flag), "+D"(a), "+S"(b), "+d"(c), "+c"(d), "+r"(r8), "+r"(r9)
                     : [function] "r"(function)
                     : "rbx", "r10", "r11", "memory", "cc", "xmm0", "xmm1", "xmm2", "xmm3", "xmm4", "xmm5", "xmm6", "xmm7",
                       "xmm8", "xmm9", "xmm10", "xmm11", "xmm12", "xmm13", "xmm14", "xmm15");
}

static void send(int which, const uint64_t argument[6], int step) {
    const uintptr_t function[CALLS] = {(uintptr_t)rembilung_verdict,       (uintptr_t)rembilung_write_job,
                                       (uintptr_t)rembilung_read_job,      (uintptr_t)rembilung_write_support,
                                       (uintptr_t)rembilung_write_book,    (uintptr_t)rembilung_read_book,
                                       (uintptr_t)rembilung_between,       (uintptr_t)rembilung_cells,
                                       (uintptr_t)rembilung_first_failing};
    own = lent = 0;
    entry = function[which];
    call_it((const void *)entry, argument, step ? 0x100 : 0);
    if (step)
        printf("%llu;%llu\n", (unsigned long long)own, (unsigned long long)lent);
}

static void send_job(int which, const Input *in, int step) {
    uint8_t report[REMBILUNG_REPORT_MOST];
    uint32_t numbers[REMBILUNG_NUMBERS];
    const uint64_t argument[WRITE_BOOK][6] = {
        {(uintptr_t)in->sheet, in->sheet_len, (uintptr_t)in->file, in->file_len, (uintptr_t)report, in->report_len},
        {(uintptr_t)in->numbers, (uintptr_t)report, REMBILUNG_FILE_MOST},
        {(uintptr_t)in->file, in->file_len, (uintptr_t)numbers},
        {(uintptr_t)in->numbers, (uintptr_t)report, REMBILUNG_FILE_MOST}};
    send(which, argument[which], step);
}

static void send_book(int which, const BookInput *in, int step) {
    static uint32_t rows[REMBILUNG_NUMBERS * ROWS_MOST];
    static uint8_t book[BOOK_ROOM];
    const uint64_t writing[6] = {(uintptr_t)in->rows, in->numbers, (uintptr_t)book, in->book_len};
    const uint64_t reading[6] = {(uintptr_t)in->book, in->book_len, (uintptr_t)rows, in->numbers};
    send(which, which == WRITE_BOOK ? writing : reading, step);
}

static void send_pair(const uint8_t *sheet, const uint32_t *mild, const uint32_t *harsh, int step) {
    uint32_t answer[REMBILUNG_BETWEEN_NUMBERS];
    const uint64_t argument[6] = {(uintptr_t)sheet, REMBILUNG_SHEET_BYTES, (uintptr_t)mild, (uintptr_t)harsh, (uintptr_t)answer};
    send(BETWEEN, argument, step);
}

static void send_run(const CellInput *in, int step) {
    static uint8_t out[REMBILUNG_CELL_OUTPUT_MOST];
    const uint64_t argument[6] = {(uintptr_t)in->records, in->records_len, in->w, (uintptr_t)out, in->out_len};
    send(CELLS, argument, step);
}

static void send_failing(const uint8_t *sheet, const BookInput *in, int step) {
    uint32_t answer[REMBILUNG_FIRST_FAILING_NUMBERS];
    const uint64_t argument[6] = {(uintptr_t)sheet, REMBILUNG_SHEET_BYTES, (uintptr_t)in->book, in->book_len, (uintptr_t)answer};
    send(FIRST_FAILING, argument, step);
}

static void usage(void) {
    fprintf(stderr, "usage: single CALL [step] < jobs, or single CALL inputs; CALL is 0 verdict, 1 write_job, 2 read_job, "
                    "3 write_support, 4 write_book, 5 read_book, 6 between, 7 cells, 8 first_failing\n");
    exit(2);
}

/* The next line's first number, from low to high, and the numbers of its job; 0 at the end. */
static int next_line(int low, int high, int *first, uint32_t *numbers, int count) {
    if (scanf("%d", first) != 1)
        return 0;
    for (int k = 0; k < count; k++)
        if (scanf("%u", &numbers[k]) != 1)
            usage();
    if (*first < low || *first > high)
        usage();
    return 1;
}

static int next_job(Input *in, int count) {
    int sheet;
    if (!next_line(0, SHEETS - 1, &sheet, in->numbers, count))
        return 0;
    in->sheet = sheet_number(sheet);
    in->sheet_len = REMBILUNG_SHEET_BYTES;
    in->report_len = REMBILUNG_REPORT_MOST;
    in->file_len = pack(in->numbers, in->file);
    return 1;
}

/* So many rows alike. */
static void repeat_row(const uint32_t *row, int count, BookInput *in) {
    static uint32_t rows[REMBILUNG_NUMBERS * ROWS_MOST];
    static uint8_t book[BOOK_ROOM];
    for (int r = 0; r < count; r++)
        memcpy(rows + REMBILUNG_NUMBERS_OF(r), row, REMBILUNG_NUMBERS * sizeof *rows);
    *in = (BookInput){rows, REMBILUNG_NUMBERS_OF(count), book, pack_book(rows, (size_t)count, book)};
}

static int next_book(BookInput *in) {
    uint32_t row[REMBILUNG_NUMBERS];
    int count;
    if (!next_line(1, ROWS_MOST, &count, row, REMBILUNG_NUMBERS))
        return 0;
    repeat_row(row, count, in);
    return 1;
}

/* The next line's book, and its sheet, any number going round the sheets that there are; none at the end. */
static const uint8_t *next_failing(BookInput *in) {
    uint32_t numbers[1 + REMBILUNG_NUMBERS];
    int count;
    if (!next_line(1, ROWS_MOST, &count, numbers, 1 + REMBILUNG_NUMBERS))
        return NULL;
    repeat_row(numbers + 1, count, in);
    return sheet_number((int)(numbers[0] % SHEETS));
}

/* A record as a number: a push of half as many newtons, from 0 to 100,000, then a pull, then silence, and then no kind. */
static void put_numbered(uint8_t *record, uint32_t number) {
    enum { VALUES = 200001 };
    uint32_t kind = number < 2 * VALUES ? REMBILUNG_CELL_PUSH + number / VALUES : number == 2 * VALUES ? REMBILUNG_CELL_SILENT : 0;
    put_record(record, kind, kind == REMBILUNG_CELL_SILENT ? 0 : half_newtons(number % VALUES));
}

static int next_run(CellInput *in) {
    static uint8_t records[CELL_RUN_BYTES];
    uint32_t numbers[1 + CYCLE];
    int count;
    if (!next_line(1, REMBILUNG_CELL_RECORDS_MOST, &count, numbers, 1 + CYCLE))
        return 0;
    for (int k = 0; k < count; k++)
        put_numbered(records + REMBILUNG_CELL_RECORD * k, numbers[1 + k % CYCLE]);
    *in = (CellInput){records, (size_t)(REMBILUNG_CELL_RECORD * count), numbers[0], REMBILUNG_CELL_OUTPUT_MOST};
    return 1;
}

static void show_numbers(const uint32_t *numbers) {
    for (int k = 0; k < REMBILUNG_NUMBERS; k++)
        printf(k == 0 ? "%u" : " %u", numbers[k]);
    printf(";");
}

static void show_input(int class, const Input *in) {
    printf("%s;", classes[class].name);
    show_numbers(in->numbers);
    for (size_t k = 0; k < in->file_len; k++)
        printf("%02x", in->file[k]);
    printf("\n");
}

static void send_jobs(int which) {
    for (int k = 0; k < CLASSES * PER_CLASS; k++) {
        send_job(which, &inputs[k / PER_CLASS][k % PER_CLASS], 0);
        show_input(k / PER_CLASS, &inputs[k / PER_CLASS][k % PER_CLASS]);
    }
}

static void send_class(int which, int class) {
    for (int k = 0; k < book_classes[class].count; k++) {
        send_book(which, &books[class][k], 0);
        printf("%s;book %d\n", book_classes[class].name, k);
    }
}

static void send_books(int which) {
    for (int class = 0; class < BOOK_CLASSES; class++)
        send_class(which, class);
}

static void send_pairs(void) {
    for (int k = 0; k < PAIR_CLASSES * PAIRS; k++) {
        const PairInput *in = &pairs[k / PAIRS][k % PAIRS];
        send_pair(in->sheet, in->mild, in->harsh, 0);
        printf("%s;", pair_classes[k / PAIRS].name);
        show_numbers(in->mild);
        show_numbers(in->harsh);
        printf("\n");
    }
}

static void send_runs(void) {
    for (int k = 0; k < CELL_CLASSES * CELL_RUNS; k++) {
        send_run(&cells[k / CELL_RUNS][k % CELL_RUNS], 0);
        printf("%s;run %d\n", cell_classes[k / CELL_RUNS].name, k % CELL_RUNS);
    }
}

static void send_failing_class(int class) {
    for (int k = 0; k < failing_classes[class].count; k++) {
        send_failing(failing[class][k].sheet, &failing[class][k].book, 0);
        printf("%s;book %d\n", failing_classes[class].name, k);
    }
}

/* The books are made here, since the whole call is asked of their rows: where that is counted, no other call of it may be. */
static void send_all_failing(void) {
    make_failing();
    for (int class = 0; class < FAILING_CLASSES; class++)
        send_failing_class(class);
}

static void send_job_lines(int which, int step) {
    static Input in;
    while (next_job(&in, which == WRITE_SUPPORT ? REMBILUNG_SUPPORT_NUMBERS : REMBILUNG_NUMBERS))
        if (which == BETWEEN)
            send_pair(in.sheet, in.numbers, in.numbers, step);
        else
            send_job(which, &in, step);
}

static void send_book_lines(int which, int step) {
    BookInput in;
    while (next_book(&in))
        send_book(which, &in, step);
}

static void send_run_lines(int step) {
    CellInput in;
    while (next_run(&in))
        send_run(&in, step);
}

static void send_failing_lines(int step) {
    BookInput in;
    for (const uint8_t *sheet = next_failing(&in); sheet != NULL; sheet = next_failing(&in))
        send_failing(sheet, &in, step);
}

static int is_of_books(int which) {
    return which == WRITE_BOOK || which == READ_BOOK;
}

static void send_inputs(int which) {
    if (which == CELLS)
        send_runs();
    else if (which == FIRST_FAILING)
        send_all_failing();
    else if (which == BETWEEN)
        send_pairs();
    else
        (is_of_books(which) ? send_books : send_jobs)(which);
}

static void send_lines(int which, int step) {
    if (which == CELLS)
        send_run_lines(step);
    else if (which == FIRST_FAILING)
        send_failing_lines(step);
    else
        (is_of_books(which) ? send_book_lines : send_job_lines)(which, step);
}

int main(int words, char **word) {
    struct sigaction action = {.sa_sigaction = trapped, .sa_flags = SA_SIGINFO};
    int which = words >= 2 && strlen(word[1]) == 1 ? word[1][0] - '0' : -1;
    int step = words == 3 && strcmp(word[2], "step") == 0, whole = words == 3 && strcmp(word[2], "inputs") == 0;
    if (which < 0 || which >= CALLS || words > 3 || (words == 3 && !step && !whole))
        usage();
    sigaction(SIGTRAP, &action, NULL);
    make_inputs();
    make_books();
    make_pairs();
    make_cells();
    if (whole)
        send_inputs(which);
    else
        send_lines(which, step);
    return 0;
}
