/* What the tests take from the papers by themselves: jobs, a support, reports, sheet T, and the groups of files and books. */
#include "paper.h"

#include <stdio.h>
#include <stdlib.h>
#include <string.h>

const uint32_t job_j[REMBILUNG_NUMBERS] = {1,   1,   105,  150, 180, 2, 3000, 3,   4,    2, 3000, 5000, 0,
                                           300, 300, 1000, 1,   200, 1, 240,  1,   8000, 4, 200,  2000};

const uint32_t single_job[REMBILUNG_NUMBERS] = {2,   2,   108, 180, 150, 2, 1118, 1, 7,     1, 5467, 30000, 804,
                                                136, 351, 914, 2,   600, 1, 223,  1, 16000, 4, 150,  773};
const uint32_t longest_job[REMBILUNG_NUMBERS] = {1,   2,    155,  200, 200,  3, 5000, 3, 10,     9, 10000, 30000, 5000,
                                                 500, 2000, 4000, 1,   2000, 2, 2000, 3, 100000, 5, 2000,  10000};

const uint32_t one_support[REMBILUNG_SUPPORT_NUMBERS] = {3, 1, 150, 30, 100, 9000, 6000, 300, 1000, 400, 4, 200, 2000};
static const char one_support_report[] =
    "1 0 0\n2 0 0\n3 0 0\n4 0 0\n5 0 0\n6 0 0\n7 1 19200\n8 1 17940\n9 0 0\n10 1 19200\n11 1 19200\n12 0 0\n"
    "wind 84 22491\ncolumn 1330\n";

static uint8_t text_j[300];
static size_t length_j;

size_t put_groups(uint32_t number, uint8_t *to) {
    size_t count = 0;
    for (; number >= 128; number /= 128)
        to[count++] = (uint8_t)(number % 128 + 128);
    to[count] = (uint8_t)number;
    return count + 1;
}

Judged judged_j(void) {
    return (Judged){"J", &scaffold, job_j, report_j()};
}

Judged judged_support(void) {
    return (Judged){"the support", &support, one_support, {one_support_report, strlen(one_support_report)}};
}

File file_of(const Kind *kind, const uint32_t *numbers) {
    File file = {{0}, kind->count, {0}};
    for (size_t k = 0; k < kind->count; k++)
        file.offset[k + 1] = file.offset[k] + put_groups(numbers[k], file.bytes + file.offset[k]);
    return file;
}

Bytes file_bytes(const File *file) {
    return (Bytes){file->bytes, file->offset[file->count]};
}

void put_few(uint32_t *rows) {
    memcpy(rows, job_j, sizeof job_j);
    memcpy(rows + REMBILUNG_NUMBERS, single_job, sizeof single_job);
    memcpy(rows + 2 * REMBILUNG_NUMBERS, longest_job, sizeof longest_job);
}

Bytes row_bytes(const uint32_t *rows, size_t count) {
    return (Bytes){rows, count * REMBILUNG_NUMBERS * sizeof *rows};
}

/* Number k from 0 as they stand in a book, column by column. */
static uint32_t number_of_book(const uint32_t *rows, size_t count, size_t k) {
    return rows[k % count * REMBILUNG_NUMBERS + k / count];
}

void make_book(Book *book, const uint32_t *rows, size_t count) {
    book->rows = count;
    book->offset[0] = 0;
    book->offset[1] = put_groups((uint32_t)count, book->bytes);
    for (size_t k = 0; k < count * REMBILUNG_NUMBERS; k++) {
        size_t at = book->offset[k + 1];
        book->offset[k + 2] = at + put_groups(number_of_book(rows, count, k), book->bytes + at);
    }
}

Bytes book_bytes(const Book *book) {
    return (Bytes){book->bytes, book->offset[book->rows * REMBILUNG_NUMBERS + 1]};
}

size_t offset_in_book(const Book *book, size_t row, size_t number) {
    return book->offset[1 + number * book->rows + row];
}

Answer file_answer(const File *file, uint32_t first, Answer due) {
    size_t asked = first == 3 ? support.count : scaffold.count;
    if (asked < file->count)
        return refused(7, (uint32_t)file->offset[asked]);
    return asked > file->count ? refused(6, (uint32_t)file_bytes(file).length) : due;
}

void set_entry(Sheet *sheet, int k, uint32_t thousandths) {
    sheet->bytes[2 * k] = (uint8_t)(thousandths % 256);
    sheet->bytes[2 * k + 1] = (uint8_t)(thousandths / 256);
}

uint32_t entry_of(const Sheet *sheet, int k) {
    return sheet->bytes[2 * k] + 256u * sheet->bytes[2 * k + 1];
}

Sheet sheet_t(void) {
    Sheet sheet;
    for (int k = 0; k <= 250; k++)
        set_entry(&sheet, k, 1000 - 4 * k > 150 ? (uint32_t)(1000 - 4 * k) : 150);
    return sheet;
}

Bytes sheet_bytes(const Sheet *sheet) {
    return (Bytes){sheet->bytes, REMBILUNG_SHEET_BYTES};
}

void read_report_j(const char *path) {
    FILE *from = fopen(path, "rb");
    length_j = from == NULL ? 0 : fread(text_j, 1, sizeof text_j, from);
    if (length_j == 0) {
        fprintf(stderr, "tests/c: cannot read J's report from %s\n", path);
        exit(2);
    }
    fclose(from);
}

Bytes report_j(void) {
    return (Bytes){text_j, length_j};
}
