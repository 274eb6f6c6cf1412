/* Makes the inputs of the measurements on books: accepted ones of 200, 20 and 1 rows, and ones that are refused late. */
#include "books.h"

#include <stdio.h>
#include <stdlib.h>
#include <string.h>

/* A number that no field takes can have five bytes where it had one. */
enum { FIVE_BYTES_MORE = 5 };

BookInput *books[BOOK_CLASSES];

size_t pack_book(const uint32_t *rows, size_t count, uint8_t *book) {
    size_t at = put_groups((uint32_t)count, book);
    for (size_t k = 0; k < REMBILUNG_NUMBERS_OF(count); k++)
        at += put_groups(rows[REMBILUNG_NUMBERS_OF(k % count) + k / count], book + at);
    return at;
}

void leave_book(BookInput *to) {
    (void)to;
}

void spoil_last_row(BookInput *to) {
    to->rows[to->numbers - from_to(1, REMBILUNG_NUMBERS)] = from_to(100001, 4000000000u);
    to->book_len = pack_book(to->rows, to->numbers / REMBILUNG_NUMBERS, to->book);
}

/* The last number is cut off or is not in its shortest form. */
void damage_end(BookInput *to) {
    to->book_len -= 1;
    if (from_to(0, 1) == 0)
        return;
    to->book[to->book_len++] |= 0x80;
    to->book[to->book_len++] = 0;
}

static void short_book(BookInput *to) {
    to->book_len -= from_to(1, (uint32_t)to->book_len);
}

static void short_rows(BookInput *to) {
    to->numbers -= from_to(1, (uint32_t)to->numbers);
}

const BookClass book_classes[BOOK_CLASSES] = {
    {"writing, 200 rows", 1, 200, 16, 1, leave_book},
    {"writing, 20 rows", 1, 20, 160, 0, leave_book},
    {"writing, 1 row", 1, 1, 512, 0, leave_book},
    {"11 writing, last of 200 rows bad", 1, 200, 16, 0, spoil_last_row},
    {"8 writing, buffer too short for 200 rows", 1, 200, 16, 0, short_book},
    {"reading, 200 rows", 0, 200, 16, 1, leave_book},
    {"reading, 20 rows", 0, 20, 160, 0, leave_book},
    {"reading, 1 row", 0, 1, 512, 0, leave_book},
    {"9 reading, last number of 200 rows damaged", 0, 200, 16, 0, damage_end},
    {"11 reading, last of 200 rows bad", 0, 200, 16, 0, spoil_last_row},
    {"8 reading, room too short for 200 rows", 0, 200, 16, 0, short_rows},
};

/* Of no bytes there may be none, which is no fault. */
void *room_of(size_t bytes) {
    void *at = calloc(1, bytes > 0 ? bytes : 1);
    if (at == NULL) {
        fprintf(stderr, "bench: no memory for the books\n");
        exit(1);
    }
    return at;
}

static void random_rows(uint32_t *rows, int count) {
    for (int r = 0; r < count; r++)
        random_job(from_to(0, 2) == 0 ? 2 : 1, rows + REMBILUNG_NUMBERS_OF(r));
}

BookInput room_for_book(int rows) {
    size_t numbers = REMBILUNG_NUMBERS_OF(rows);
    return (BookInput){room_of(numbers * sizeof(uint32_t)), numbers,
                       room_of((size_t)rows * REMBILUNG_FILE_MOST + 2 + FIVE_BYTES_MORE), 0};
}

static void make_book(const BookClass *class, BookInput *to) {
    *to = room_for_book(class->rows);
    random_rows(to->rows, class->rows);
    to->book_len = pack_book(to->rows, (size_t)class->rows, to->book);
    class->spoil(to);
}

static void make_class(int class) {
    books[class] = room_of((size_t)book_classes[class].count * sizeof(BookInput));
    for (int k = 0; k < book_classes[class].count; k++)
        make_book(&book_classes[class], &books[class][k]);
}

void make_books(void) {
    for (int class = 0; class < BOOK_CLASSES; class++)
        make_class(class);
}
