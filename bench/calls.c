/* Holds the calls that are measured to one another before anything is measured, and sends inputs through them. */
#include "calls.h"

#include <stdio.h>
#include <stdlib.h>
#include <string.h>

Verdict plain_verdict_gcc, plain_verdict_clang;
Between plain_between_gcc, plain_between_clang;
WriteBook plain_write_book_gcc, plain_write_book_clang;
ReadBook plain_read_book_gcc, plain_read_book_clang;
Cells plain_cells_gcc, plain_cells_clang;
FirstFailing plain_first_failing_gcc, plain_first_failing_clang;

const Version versions[] = {
    {"library", rembilung_verdict, rembilung_between, rembilung_read_job, rembilung_write_book, rembilung_read_book,
     rembilung_cells, rembilung_first_failing},
#ifdef WITH_GCC
    {"C gcc -O3", plain_verdict_gcc, plain_between_gcc, NULL, plain_write_book_gcc, plain_read_book_gcc,
     plain_cells_gcc, plain_first_failing_gcc},
#endif
#ifdef WITH_CLANG
    {"C clang -O3", plain_verdict_clang, plain_between_clang, NULL, plain_write_book_clang, plain_read_book_clang,
     plain_cells_clang, plain_first_failing_clang},
#endif
};
const int version_count = sizeof versions / sizeof versions[0];

enum { BEYOND = 64 };

/* Where the calls write; all of it is compared. */
typedef struct {
    uint8_t greatest[REMBILUNG_CELL_OUTPUT_MOST + BEYOND];
    uint8_t report[REMBILUNG_REPORT_MOST + BEYOND], book[REMBILUNG_BOOK_MOST + BEYOND];
    uint32_t rows[REMBILUNG_NUMBERS * REMBILUNG_BOOK_ROWS_MOST + BEYOND], answer[REMBILUNG_BETWEEN_NUMBERS + BEYOND];
} Written;

static Written to;

static uint64_t pass_verdicts(const Version *version, const List *list) {
    Verdict *verdict = version->verdict;
    uint64_t sum = 0;
    for (int k = 0; k < list->count; k++) {
        const Input *in = list->input[k];
        sum += verdict(in->sheet, in->sheet_len, in->file, in->file_len, to.report, in->report_len);
    }
    return sum;
}

static uint64_t pass_books(const Version *version, const List *list) {
    uint64_t sum = 0;
    for (int k = 0; k < list->count; k++) {
        const BookInput *in = &list->book[k];
        sum += list->writes ? version->write_book(in->rows, in->numbers, to.book, in->book_len)
                            : version->read_book(in->book, in->book_len, to.rows, in->numbers);
    }
    return sum;
}

static uint64_t pass_pairs(const Version *version, const List *list) {
    uint64_t sum = 0;
    for (int k = 0; k < list->count; k++) {
        const PairInput *in = &list->pair[k];
        sum += version->between(in->sheet, in->sheet_len, in->mild, in->harsh, to.answer);
    }
    return sum;
}

static uint64_t pass_cells(const Version *version, const List *list) {
    uint64_t sum = 0;
    for (int k = 0; k < list->count; k++) {
        const CellInput *in = &list->cell[k];
        sum += version->cells(in->records, in->records_len, in->w, to.greatest, in->out_len);
    }
    return sum;
}

static uint64_t pass_failing(const Version *version, const List *list) {
    uint64_t sum = 0;
    for (int k = 0; k < list->count; k++) {
        const FailingInput *in = &list->failing[k];
        sum += version->first_failing(in->sheet, REMBILUNG_SHEET_BYTES, in->book.book, in->book.book_len, to.answer);
    }
    return sum;
}

static uint64_t row_call(const Version *version, const FailingInput *in, size_t row) {
    return version->verdict(in->sheet, REMBILUNG_SHEET_BYTES, in->files[row].bytes, in->files[row].length, to.report,
                            REMBILUNG_REPORT_MOST);
}

static uint64_t row_calls(const Version *version, const FailingInput *in) {
    uint64_t sum = 0;
    for (size_t row = 0; row < in->book.numbers / REMBILUNG_NUMBERS; row++)
        sum += row_call(version, in, row);
    return sum;
}

static uint64_t pass_row_calls(const Version *version, const List *list) {
    uint64_t sum = 0;
    for (int k = 0; k < list->count; k++)
        sum += row_calls(version, &list->failing[k]);
    return sum;
}

static uint64_t pass_books_read(const Version *version, const List *list) {
    uint64_t sum = 0;
    for (int k = 0; k < list->count; k++) {
        const BookInput *in = &list->failing[k].book;
        sum += version->read_book(in->book, in->book_len, to.rows, in->numbers);
    }
    return sum;
}

static uint64_t pass_row_0_calls(const Version *version, const List *list) {
    uint64_t sum = 0;
    for (int k = 0; k < list->count; k++)
        sum += row_call(version, &list->failing[k], 0);
    return sum;
}

static uint64_t two_calls(const Version *version, const List *list, size_t room) {
    uint64_t sum = 0;
    for (int k = 0; k < list->count; k++) {
        const PairInput *in = &list->pair[k];
        sum += version->verdict(in->sheet, in->sheet_len, in->mild_file, in->mild_len, to.report, room);
        sum += version->verdict(in->sheet, in->sheet_len, in->harsh_file, in->harsh_len, to.report, room);
    }
    return sum;
}

static uint64_t pass_two_calls(const Version *version, const List *list) {
    return two_calls(version, list, REMBILUNG_REPORT_MOST);
}

static uint64_t pass_into_no_room(const Version *version, const List *list) {
    return two_calls(version, list, 0);
}

static uint64_t pass_two_readings(const Version *version, const List *list) {
    uint64_t sum = 0;
    for (int k = 0; k < list->count; k++) {
        sum += version->read_job(list->pair[k].mild_file, list->pair[k].mild_len, to.rows);
        sum += version->read_job(list->pair[k].harsh_file, list->pair[k].harsh_len, to.rows);
    }
    return sum;
}

/* Once a pair: a file of no bytes is refused as soon as it is read. */
static uint64_t pass_sheet_alone(const Version *version, const List *list) {
    uint64_t sum = 0;
    for (int k = 0; k < list->count; k++)
        sum += version->verdict(list->pair[k].sheet, list->pair[k].sheet_len, list->pair[k].mild_file, 0, to.report, 0);
    return sum;
}

const BookClass *book_class_of(int which) {
    return which >= BOOK_LISTS && which < PAIR_LISTS ? &book_classes[which - BOOK_LISTS] : NULL;
}

const CellClass *cell_class_of(int which) {
    return which >= CELL_LISTS && which < FAILING_LISTS ? &cell_classes[which - CELL_LISTS] : NULL;
}

const FailingClass *failing_class_of(int which) {
    return which >= FAILING_LISTS && which < PART_LISTS ? &failing_classes[which - FAILING_LISTS] : NULL;
}

static List list_of_books(int which) {
    const BookClass *class = book_class_of(which);
    return (List){.name = class->name, .call = class->writes ? "write_book" : "read_book", .versions = version_count,
                  .count = class->count, .writes = class->writes, .book = books[which - BOOK_LISTS], .pass = pass_books};
}

static List list_of_pairs(int class) {
    return (List){.name = pair_classes[class].name, .call = "between", .versions = version_count, .count = PAIRS,
                  .pair = pairs[class], .pass = pass_pairs};
}

static List list_of_cells(int class) {
    return (List){.name = cell_classes[class].name, .call = "cells", .versions = version_count, .count = CELL_RUNS,
                  .cell = cells[class], .pass = pass_cells};
}

static List list_of_failing(int class) {
    return (List){.name = failing_classes[class].name, .call = "first_failing", .versions = version_count,
                  .count = failing_classes[class].count, .failing = failing[class], .pass = pass_failing};
}

/* Of the library alone: its calls on two jobs and on the first failing row are held to its other calls. */
static List list_of_part(int part) {
    static const struct {
        const char *name, *call;
        int failing;
        uint64_t (*pass)(const Version *, const List *);
    } parts[PARTS] = {
        [TWO_CALLS] = {"two whole calls on their files", "verdict", -1, pass_two_calls},
        [INTO_NO_ROOM] = {"the same into no room", "verdict", -1, pass_into_no_room},
        [TWO_READINGS] = {"both files read", "read_job", -1, pass_two_readings},
        [SHEET_ALONE] = {"the sheet before a file of no bytes", "verdict", -1, pass_sheet_alone},
        [ROW_CALLS] = {"a whole call on each of 200 rows that pass", "verdict", NONE_FAILS, pass_row_calls},
        [BOOK_READ] = {"the book read whose row 0 fails", "read_book", ROW_0_FAILS, pass_books_read},
        [ROW_0_CALL] = {"a whole call on that row", "verdict", ROW_0_FAILS, pass_row_0_calls},
    };
    int class = parts[part].failing;
    return (List){.name = parts[part].name, .call = parts[part].call, .versions = 1,
                  .count = class < 0 ? PAIRS : failing_classes[class].count, .pair = class < 0 ? pairs[0] : NULL,
                  .failing = class < 0 ? NULL : failing[class], .pass = parts[part].pass};
}

List list_of(int which) {
    if (which >= PART_LISTS)
        return list_of_part(which - PART_LISTS);
    if (which >= FAILING_LISTS)
        return list_of_failing(which - FAILING_LISTS);
    if (which >= CELL_LISTS)
        return list_of_cells(which - CELL_LISTS);
    if (which >= PAIR_LISTS)
        return list_of_pairs(which - PAIR_LISTS);
    if (which >= BOOK_LISTS)
        return list_of_books(which);
    int mixed = which == MIXED;
    List list = {.name = mixed ? "mix" : classes[which].name, .call = "verdict", .versions = version_count,
                 .count = mixed ? MIX : PER_CLASS, .pass = pass_verdicts};
    for (int k = 0; k < list.count; k++)
        list.input[k] = mixed ? mix[k] : &inputs[which][k];
    return list;
}

int share_of(int which) {
    return which < MIXED ? classes[which].share : which == MIXED ? MIX : 0;
}

int has_aim(int which) {
    const BookClass *class = book_class_of(which);
    return class != NULL ? class->has_aim : which == MIXED;
}

/* What is packed of the rows, whatever room the call is lent. */
double bytes_of(int which) {
    static uint8_t book[REMBILUNG_BOOK_MOST + BEYOND];
    List list = list_of_books(which);
    size_t rows = (size_t)book_class_of(which)->rows, sum = 0;
    for (int k = 0; k < list.count; k++)
        sum += pack_book(list.book[k].rows, rows, book);
    return (double)sum / list.count;
}

static uint64_t answer(const Version *version, const List *list, int k, Written *written) {
    List one = *list;
    one.count = 1;
    if (list->book != NULL)
        one.book = list->book + k;
    else if (list->pair != NULL)
        one.pair = list->pair + k;
    else if (list->cell != NULL)
        one.cell = list->cell + k;
    else if (list->failing != NULL)
        one.failing = list->failing + k;
    else
        one.input[0] = list->input[k];
    memset(&to, 0xA5, sizeof to);
    uint64_t result = one.pass(version, &one);
    *written = to;
    return result;
}

/* The refusal that a class is named after; 0 for the accepted. */
static uint32_t refusal_due(const char *name) {
    return (uint32_t)strtoul(name, NULL, 10);
}

/* An input is not of the class that it stands in. */
static void ill_named(const List *list, int k, const char *what, uint32_t number) {
    fprintf(stderr, "bench: input %d of class \"%s\" is answered with %s %u\n", k, list->name, what, number);
    exit(1);
}

static void compare(const List *list, int k) {
    static Written due, got;
    uint64_t first = answer(&versions[0], list, k, &due);
    if (rembilung_refusal(first) != refusal_due(list->name))
        ill_named(list, k, "refusal", rembilung_refusal(first));
    if (list->failing != NULL && !rembilung_refused(first) && due.answer[0] != list->failing[k].fails)
        ill_named(list, k, "row", due.answer[0]);
    for (int v = 1; v < version_count; v++) {
        uint64_t other = answer(&versions[v], list, k, &got);
        if (other == first && memcmp(&due, &got, sizeof due) == 0)
            continue;
        fprintf(stderr, "bench: %s and %s differ on input %d of class \"%s\"\n", versions[0].name, versions[v].name, k,
                list->name);
        exit(1);
    }
}

/* The mix has inputs of the classes alone, and what other calls do with pairs and books the library does alone. */
static void compare_list(int which) {
    List list = list_of(which);
    for (int k = 0; k < list.count; k++)
        compare(&list, k);
}

void make_all(void) {
    make_inputs();
    make_books();
    make_pairs();
    make_cells();
    make_failing();
}

void make_and_compare(void) {
    make_all();
    for (int which = 0; which < PART_LISTS; which++)
        if (which != MIXED)
            compare_list(which);
}

uint64_t send(const Version *version, const List *list, int times) {
    uint64_t sum = 0;
    for (int t = 0; t < times; t++)
        sum += list->pass(version, list);
    return sum;
}
