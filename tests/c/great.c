/* Lengths of 4 GiB and more: places are capped, and no length and no count is cut to 32 bits. */
#define _DEFAULT_SOURCE
#include <stdio.h>
#include <stdlib.h>
#include <string.h>
#include <sys/mman.h>

#include "check.h"
#include "paper.h"
#include "parts.h"
#include "records.h"

static const size_t GIB4 = (size_t)1 << 32;
static Book book_j;

/* Zeros that take memory only where they are written. */
static void *zeros(size_t length) {
    void *at = mmap(NULL, length, PROT_READ | PROT_WRITE, MAP_PRIVATE | MAP_ANONYMOUS | MAP_NORESERVE, -1, 0);
    if (at == MAP_FAILED) {
        fprintf(stderr, "tests/c: no address space for a buffer of %zu bytes\n", length);
        exit(2);
    }
    return at;
}

static void sheet_of_length(size_t length, uint32_t place) {
    uint8_t report[REMBILUNG_REPORT_MOST];
    uint32_t answer[REMBILUNG_BETWEEN_NUMBERS], first[REMBILUNG_FIRST_FAILING_NUMBERS];
    File j = file_of(&scaffold, job_j);
    Sheet t = sheet_t();
    uint8_t *sheet = zeros(length);
    memcpy(sheet, t.bytes, sizeof t.bytes);
    case_begins("sheet of %zu bytes", length);
    result_is(rembilung_verdict(sheet, length, j.bytes, file_bytes(&j).length, report, sizeof report), refused(1, place));
    result_is(rembilung_between(sheet, length, job_j, job_j, answer), refused(1, place));
    result_is(rembilung_first_failing(sheet, length, book_j.bytes, book_bytes(&book_j).length, first), refused(1, place));
    munmap(sheet, length);
}

static void long_file(Judged job) {
    uint8_t report[REMBILUNG_REPORT_MOST];
    uint32_t numbers[REMBILUNG_NUMBERS];
    File short_file = file_of(job.kind, job.numbers);
    Sheet t = sheet_t();
    size_t own = file_bytes(&short_file).length, length = GIB4 + own;
    uint8_t *file = zeros(length);
    memcpy(file, short_file.bytes, own);
    case_begins("the file of %s with 4 GiB of zeros behind it", job.name);
    Answer due = refused(7, (uint32_t)own);
    result_is(rembilung_verdict(t.bytes, sizeof t.bytes, file, length, report, sizeof report), due);
    result_is(rembilung_read_job(file, length, numbers), due);
    munmap(file, length);
}

/* The buffer begins with what is due and goes on, as far as is looked, with the zeros that it had. */
static void begins_with(const uint8_t *buffer, Bytes due) {
    static const uint8_t none[4096];
    if (memcmp(buffer, due.at, due.length) != 0)
        differs("what was written is not what is due");
    if (memcmp(buffer + due.length, none, sizeof none) != 0)
        differs("a byte beyond what is due was written");
}

static void long_report(Judged job) {
    File file = file_of(job.kind, job.numbers);
    Sheet t = sheet_t();
    uint8_t *report = zeros(GIB4 + 8192);
    case_begins("%s into a report buffer of 4 GiB and 3 bytes", job.name);
    result_is(rembilung_verdict(t.bytes, sizeof t.bytes, file.bytes, file_bytes(&file).length, report, GIB4 + 3),
              gives((uint32_t)job.report.length, job.report));
    begins_with(report, job.report);
    munmap(report, GIB4 + 8192);
}

static void long_file_buffer(Judged job) {
    File file = file_of(job.kind, job.numbers);
    Bytes own = file_bytes(&file);
    uint8_t *buffer = zeros(GIB4 + 8192);
    case_begins("%s written into a file buffer of 4 GiB and 3 bytes", job.name);
    result_is(job.kind->write(job.numbers, buffer, GIB4 + 3), gives((uint32_t)own.length, own));
    begins_with(buffer, own);
    munmap(buffer, GIB4 + 8192);
}

static void great_lengths_of(Judged job) {
    long_file(job);
    long_report(job);
    long_file_buffer(job);
}

/* A book with 4 GiB of zeros behind it. */
static void long_book(Bytes own, uint32_t place) {
    uint32_t rows[REMBILUNG_NUMBERS], first[REMBILUNG_FIRST_FAILING_NUMBERS];
    size_t length = GIB4 + own.length;
    Sheet t = sheet_t();
    uint8_t *book = zeros(length);
    memcpy(book, own.at, own.length);
    case_begins("a book of %zu bytes with 4 GiB of zeros behind it", own.length);
    result_is(rembilung_read_book(book, length, rows, REMBILUNG_NUMBERS), refused(9, place));
    result_is(rembilung_first_failing(t.bytes, sizeof t.bytes, book, length, first), refused(9, place));
    munmap(book, length);
}

static void long_book_buffer(void) {
    Bytes own = book_bytes(&book_j);
    uint8_t *buffer = zeros(GIB4 + 8192);
    case_begins("J written into a book's buffer of 4 GiB and 3 bytes");
    result_is(rembilung_write_book(job_j, REMBILUNG_NUMBERS, buffer, GIB4 + 3), gives((uint32_t)own.length, own));
    begins_with(buffer, own);
    munmap(buffer, GIB4 + 8192);
}

/* Numbers, or rows, that are few or none where they are cut to 32 bits. */
static void many_rows_to_read_into(size_t numbers) {
    Bytes own = row_bytes(job_j, 1);
    uint8_t *rows = zeros(numbers * sizeof(uint32_t) + 8192);
    case_begins("the book of J read into room for %zu numbers", numbers);
    result_is(rembilung_read_book(book_j.bytes, book_bytes(&book_j).length, (uint32_t *)rows, numbers), gives(1, own));
    begins_with(rows, own);
    munmap(rows, numbers * sizeof(uint32_t) + 8192);
}

static void many_rows_to_write(size_t numbers, uint32_t place) {
    uint8_t book[REMBILUNG_BOOK_MOST];
    uint32_t *rows = zeros(numbers * sizeof *rows);
    memcpy(rows, job_j, sizeof job_j);
    case_begins("write_book of %zu numbers", numbers);
    result_is(rembilung_write_book(rows, numbers, book, sizeof book), refused(10, place));
    munmap(rows, numbers * sizeof *rows);
}

static void great_lengths_of_books(void) {
    Bytes own = book_bytes(&book_j);
    long_book(own, (uint32_t)own.length);
    /* No bytes where the length is cut to 32 bits; the first of the zeros is a count. */
    long_book((Bytes){own.at, 0}, 1);
    long_book_buffer();
    many_rows_to_read_into(GIB4 + 3);
    many_rows_to_write(GIB4 + REMBILUNG_NUMBERS, 171798692);
}

/* 400 GiB of rows. */
static void greatest_counts(void) {
    many_rows_to_read_into(REMBILUNG_NUMBERS_OF(GIB4));
    many_rows_to_write(REMBILUNG_NUMBERS_OF(GIB4) - 26, 4294967294);
    many_rows_to_write(REMBILUNG_NUMBERS_OF(GIB4) - 25, 4294967295);
    many_rows_to_write(REMBILUNG_NUMBERS_OF(GIB4), 4294967295);
    many_rows_to_write(REMBILUNG_NUMBERS_OF(GIB4 + 1), 4294967295);
}

/* Of such lengths some are a few whole records, or none, where they are cut to 32 bits, or their count is. */
static void many_bytes_of_records(size_t length, uint32_t place) {
    uint8_t out[8], *records = zeros(length);
    Run run = {.count = 0};
    set_record(&run, 0, PUSH, NEWTONS_1);
    memcpy(records, run.bytes, RECORD_BYTES);
    case_begins("cells of %zu bytes", length);
    result_is(rembilung_cells(records, length, 1, out, sizeof out), refused(15, place));
    result_is(rembilung_cells(records, length, 0, out, sizeof out), refused(13, 0));
    result_is(rembilung_cells(records, length, UINT32_MAX, out, sizeof out), refused(13, UINT32_MAX));
    munmap(records, length);
}

static void long_cells_output(size_t room) {
    static const uint32_t number = 1;
    Run run = {.count = 0};
    Answer due = pushes(&number, 1);
    uint8_t *out = zeros(room + 8192);
    set_record(&run, 0, PUSH, NEWTONS_1);
    case_begins("a push into an output of %zu bytes", room);
    result_is(rembilung_cells(run.bytes, RECORD_BYTES, 1, out, room), due);
    begins_with(out, due.written);
    munmap(out, room + 8192);
}

static void great_lengths_of_cells(void) {
    many_bytes_of_records(GIB4 - 8, 4294967288);
    many_bytes_of_records(GIB4 - 2, 4294967294);
    many_bytes_of_records(GIB4 - 1, 4294967295);
    many_bytes_of_records(GIB4, 4294967295);
    many_bytes_of_records(GIB4 + RECORD_BYTES, 4294967295);
    many_bytes_of_records(GIB4 + 15, 4294967295);
    many_bytes_of_records(GIB4 + RECORD_BYTES * RECORDS_MOST, 4294967295);
    many_bytes_of_records(RECORD_BYTES * (GIB4 + 1), 4294967295);
    long_cells_output(GIB4);
    long_cells_output(GIB4 + 3);
    long_cells_output(4 * GIB4 + 3);
}

void test_great_lengths(int within_128_gib) {
    make_book(&book_j, job_j, 1);
    sheet_of_length(GIB4 - 2, 4294967294);
    sheet_of_length(GIB4 - 1, 4294967295);
    sheet_of_length(GIB4, 4294967295);
    sheet_of_length(GIB4 + REMBILUNG_SHEET_BYTES, 4294967295);
    great_lengths_of(judged_j());
    great_lengths_of(judged_support());
    great_lengths_of_books();
    great_lengths_of_cells();
    if (!within_128_gib)
        greatest_counts();
}
