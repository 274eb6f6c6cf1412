/* Fuzzes what the host makes of the first failing row: of any bytes as a table, and as a book, it is the first row of whose report
 * a check fails, and no other answer is taken for one; and what is printed and said of it. */
#define _POSIX_C_SOURCE 200809L
#include "found.h"

#include "columns.h"
#include "jobs.h"
#include "printed.h"
#include "rembilung.h"

#define ROWS_MOST REMBILUNG_BOOK_ROWS_MOST

/* A front of three bytes says what is made of the rest: this one, how many rows, and how long their names are. */
enum { FRONT = 3, MADE = 0xFE };

/* The first row of whose report a check fails, or how many rows there are. */
static uint32_t first_by_reports(const Sheet *sheet, const uint32_t *rows, uint32_t count) {
    uint8_t bytes[REMBILUNG_REPORT_MOST];
    Report report;
    uint32_t row = 0;
    for (int failing = 0; row < count && !failing; row += !failing) {
        uint64_t length = report_on(sheet->bytes, sheet->length, rows + REMBILUNG_NUMBERS_OF(row), bytes);
        MUST(!rembilung_refused(length) && read_report(bytes, (size_t)length, &scaffold, &report));
        failing = first_failing(&report) > 0;
    }
    return row;
}

static size_t lines_of(const char *text) {
    size_t lines = 0;
    for (; *text != '\0'; text++)
        lines += *text == '\n';
    return lines;
}

/* Two lines and one for each check that fails, and one sentence. */
static void shown(const Found *found, const Packing *table) {
    Printed printed, said;
    int failed = count_checks(found->report.verdicts, FAILS);
    open_printed(&printed);
    open_printed(&said);
    print_found(printed.to, found);
    say_found(said.to, found, table);
    MUST(lines_of(close_printed(&printed)) == 2 + (size_t)failed && lines_of(close_printed(&said)) == 1);
    MUST((failed > 0) == (found->row != REMBILUNG_NONE) && (failed > 0) == (strstr(said.text, " fails check") != NULL));
    MUST((table != NULL && failed > 0) == (strstr(said.text, " of the table, ") != NULL));
    free(printed.text);
    free(said.text);
}

/* The answer is looked up, and no answer that differs from it in one number. */
static void answered(const Sheet *sheet, const uint8_t *book, size_t length, const uint32_t *answer, const Packing *table) {
    uint32_t judged[] = {answer[0], answer[1] + 1}, row[] = {answer[0] + 1, answer[1]};
    Found found;
    MUST(!look_up(&found, judged, sheet, book, length) && !look_up(&found, row, sheet, book, length));
    MUST(look_up(&found, answer, sheet, book, length));
    shown(&found, table);
}

/* The harness on books lends the call its buffers between guards. */
static void as_book(const Sheet *sheet, const uint8_t *book, size_t length, const Packing *table) {
    static uint32_t rows[REMBILUNG_NUMBERS_OF(ROWS_MOST)];
    uint32_t answer[REMBILUNG_FIRST_FAILING_NUMBERS];
    uint64_t read = rembilung_read_book(book, length, rows, sizeof rows / sizeof rows[0]);
    uint64_t done = rembilung_first_failing(sheet->bytes, sheet->length, book, length, answer);
    MUST((length > 0 || read == 0) && done == (rembilung_refused(read) ? read : REMBILUNG_FIRST_FAILING_NUMBERS));
    if (rembilung_refused(read))
        return;
    uint32_t row = first_by_reports(sheet, rows, (uint32_t)read);
    MUST(answer[REMBILUNG_FIRST_FAILING_ROW] == (row < read ? row : REMBILUNG_NONE));
    MUST(answer[REMBILUNG_FIRST_FAILING_JUDGED] == (row < read ? row + 1 : row));
    answered(sheet, book, length, answer, table);
}

/* More rows than a book has are refused by their number, and a row that cannot stand by its place. */
static void packed(const Sheet *sheet, const Packing *packing) {
    uint8_t book[REMBILUNG_BOOK_MOST];
    uint64_t made = rembilung_write_book(packing->numbers, REMBILUNG_NUMBERS_OF(packing->kept), book, sizeof book);
    MUST((rembilung_refusal(made) == 10) == (packing->rows.count > ROWS_MOST));
    MUST(rembilung_refusal(made) != 11 || rembilung_place(made) < packing->kept);
    if (!rembilung_refused(made))
        as_book(sheet, book, (size_t)made, packing);
}

/* Where no book can be made, that is said. */
static void as_table(const Sheet *sheet, const char *bytes, size_t length) {
    static Csv csv;
    static Packing packing;
    Memory memory = {bytes, length, length + 1};
    Printed said;
    open_printed(&said);
    packing = (Packing){.rows = {.csv = &csv, .said = said.to, .columns = {.named = 1}}, .undone = "no row was judged"};
    rows_open(&packing.rows, (Source){more_of_memory, &memory});
    int whole = is_whole(&packing, read_rows(&packing));
    MUST(lines_of(close_printed(&said)) > 0 || whole);
    if (whole)
        packed(sheet, &packing);
    free(said.text);
}

static void put_row(FILE *to, const char *name, size_t length, const uint32_t *numbers) {
    csv_put(to, name, length);
    for (int k = 0; k < REMBILUNG_NUMBERS; k++)
        fprintf(to, ",%u", (unsigned)numbers[k]);
    fputs("\n", to);
}

/* Rows that all stand, with names, from the bytes: a few, or as many as a book has, or one more. */
static void made_table(const Sheet *sheet, const uint8_t *data, size_t size) {
    size_t rows = data[1] < 2 ? ROWS_MOST + data[1] : data[1] % 8;
    uint32_t numbers[REMBILUNG_NUMBERS];
    char *text = NULL;
    size_t length = 0;
    FILE *to = open_memstream(&text, &length);
    MUST(to != NULL);
    fputs("facade,", to);
    print_template(to);
    for (size_t row = 0; row < rows; row++) {
        size_t at = FRONT + row % (size - FRONT), left = size - at;
        numbers_of(data + at, left, &double_row, numbers);
        put_row(to, (const char *)data + at, data[2] < left ? data[2] : left, numbers);
    }
    MUST(fclose(to) == 0);
    as_table(sheet, text, length);
    free(text);
}

static void under(const Sheet *sheet, const uint8_t *data, size_t size) {
    as_book(sheet, data, size, NULL);
    as_table(sheet, (const char *)data, size);
    if (size > FRONT && data[0] == MADE)
        made_table(sheet, data, size);
}

int LLVMFuzzerTestOneInput(const uint8_t *data, size_t size) {
    static Sheet sheet;
    test_sheet(&sheet);
    under(&sheet, data, size);
    example_sheet(&sheet);
    under(&sheet, data, size);
    return 0;
}
