/* The command that shows a season's book as a table. */
#include <inttypes.h>
#include <stdio.h>

#include "book.h"
#include "columns.h"
#include "commands.h"
#include "files.h"
#include "status.h"

static void print_row(FILE *to, size_t row, const uint32_t *numbers) {
    fprintf(to, "%zu", row);
    for (int k = 0; k < REMBILUNG_NUMBERS; k++)
        fprintf(to, ",%" PRIu32, numbers[k]);
    fputs("\n", to);
}

/* The first column is no number of a job: it keeps the place in the book, however the table is sorted later. */
static void print_table(FILE *to, const uint32_t *numbers, size_t rows) {
    fputs("book row,", to);
    print_template(to);
    for (size_t row = 0; row < rows; row++)
        print_row(to, row, numbers + REMBILUNG_NUMBERS_OF(row));
}

static int show(const uint8_t *book, size_t length, const char *path) {
    static uint32_t numbers[REMBILUNG_NUMBERS_OF(REMBILUNG_BOOK_ROWS_MOST)];
    Output output;
    uint64_t read = rembilung_read_book(book, length, numbers, sizeof numbers / sizeof numbers[0]);
    if (rembilung_refused(read))
        return refuse_book(read, book, length, "book pack makes a book of");
    if (!open_output(&output, path))
        return UNUSABLE;
    print_table(output.to, numbers, (size_t)read);
    return close_output(&output, 1) ? JUDGED : UNUSABLE;
}

static int show_file(const char *from, const char *to) {
    static uint8_t book[BOOK_ROOM];
    size_t length;
    int more;
    return read_front(from, book, sizeof book, &length, &more) ? show(book, length, to) : UNUSABLE;
}

int show_book(Words words) {
    const char *out_path = NULL;
    int help = 0;
    const Option options[] = {{"--out", &out_path, NULL}, {"--help", NULL, &help}};
    if (!take_options(&words, options, 2) || (!help && !count_is(&words, 1, "book show", "the book")))
        return UNUSABLE;
    return help ? show_usage() : show_file(words.words[0], out_path);
}
