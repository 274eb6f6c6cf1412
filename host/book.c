/* A season's book as bytes: its refusals in words. The library alone says what is refused; a row is looked up for the words. */
#include "book.h"

#include <inttypes.h>
#include <string.h>

#include "explain.h"
#include "fields.h"
#include "refuse.h"

const char book_takes[] = "only scaffold jobs go into a book";

/* The number whose groups of seven bits begin at *at, low group first; *at goes behind it. */
static uint32_t take_number(const uint8_t *book, size_t length, size_t *at) {
    uint32_t number = 0;
    int goes_on = 1;
    for (unsigned shift = 0; goes_on && shift < 32 && *at < length; shift += 7) {
        number |= (uint32_t)(book[*at] & 0x7F) << shift;
        goes_on = book[*at] >= 0x80;
        ++*at;
    }
    return number;
}

void row_of_book(const uint8_t *book, size_t length, uint32_t row, uint32_t *numbers) {
    size_t at = 0;
    uint32_t rows = take_number(book, length, &at);
    for (uint32_t k = 0; k < REMBILUNG_NUMBERS * rows; k++) {
        uint32_t number = take_number(book, length, &at);
        if (k % rows == row)
            numbers[k / rows] = number;
    }
}

uint64_t refusal_of_row(const uint32_t *numbers) {
    uint8_t file[REMBILUNG_FILE_MOST];
    return rembilung_write_job(numbers, file, sizeof file);
}

/* What the library answers to reading a book with room enough. */
static uint64_t read_book(const uint8_t *book, size_t length) {
    static uint32_t rows[REMBILUNG_NUMBERS_OF(REMBILUNG_BOOK_ROWS_MOST)];
    return rembilung_read_book(book, length, rows, sizeof rows / sizeof rows[0]);
}

/* No bytes are a book too, but nothing tells them from an empty table. */
int is_book(const uint8_t *bytes, size_t length) {
    return length > 0 && !rembilung_refused(read_book(bytes, length));
}

/* Cut off there, a book that goes on has all its numbers, and any other lacks one; but no bytes at all are a book. */
static int goes_on_at(const uint8_t *book, size_t length, uint32_t place) {
    return place > 0 && place <= length && rembilung_refusal(read_book(book, place)) != 9;
}

static void add_row(Text *to, const uint8_t *book, size_t length, uint32_t row) {
    uint32_t numbers[REMBILUNG_NUMBERS] = {0};
    row_of_book(book, length, row, numbers);
    text_add(to, ": ");
    explain(to, refusal_of_row(numbers), &scaffold, numbers);
    add_if_support(to, numbers, book_takes);
}

void explain_book(Text *to, uint64_t result, const uint8_t *book, size_t length) {
    uint32_t refusal = rembilung_refusal(result), place = rembilung_place(result);
    if (refusal == 9 && goes_on_at(book, length, place)) {
        text_add(to, "the book goes on after its last number, from offset %" PRIu32, place);
        return;
    }
    explain(to, result, &scaffold, NULL);
    if (refusal == 11)
        add_row(to, book, length, place);
}

/* No text has it. */
static int is_control(uint8_t byte) {
    return (byte < ' ' && byte != '\t' && byte != '\n' && byte != '\r') || byte == 0x7F;
}

/* As CSV a table is a text with a separator or a line end; as a spreadsheet program saves its own it begins as a zip does. */
static int may_be_table(const uint8_t *bytes, size_t length) {
    static const char parting[] = ",;\t\r\n";
    size_t at = 0;
    int parted = 0;
    while (at < length && !is_control(bytes[at]))
        parted |= memchr(parting, bytes[at++], sizeof parting - 1) != NULL;
    return (at == length && parted) || (length >= 4 && memcmp(bytes, "PK\3\4", 4) == 0);
}

int refuse_book(uint64_t result, const uint8_t *book, size_t length, const char *if_table) {
    Text words = {{0}, 0};
    explain_book(&words, result, book, length);
    if (may_be_table(book, length))
        text_add(&words, "; the file may be a table, which %s", if_table);
    return refuse_in_words(rembilung_refusal(result), rembilung_place(result), &words);
}
