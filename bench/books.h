/* The inputs of the measurements on books: a fixed, seeded set of books in classes. */
#ifndef BOOKS_H
#define BOOKS_H

#include "inputs.h"

enum { BOOK_CLASSES = 11 };

/* The arguments of both calls: rows to be written, and how many numbers are lent; a book to be read, and how many bytes are
 * lent. The call that writes has the other pair as its room, and so the other way round. */
typedef struct {
    uint32_t *rows;
    size_t numbers;
    uint8_t *book;
    size_t book_len;
} BookInput;

/* A class: its name, whether its call writes books, the rows of a book, how many books, whether it has an aim, and what is done
 * to an accepted input to get there. */
typedef struct {
    const char *name;
    int writes, rows, count, has_aim;
    void (*spoil)(BookInput *);
} BookClass;

extern const BookClass book_classes[BOOK_CLASSES];
extern BookInput *books[BOOK_CLASSES];

/* Fills books, after make_inputs; the same on every run. */
void make_books(void);
/* So many zeros; and room for so many rows and their book. Where there is no memory the program ends. */
void *room_of(size_t bytes);
BookInput room_for_book(int rows);
/* Leaves a book as it is; makes its last row a bad one; cuts its last number off or damages it. */
void leave_book(BookInput *book);
void spoil_last_row(BookInput *book);
void damage_end(BookInput *book);
/* Packs so many rows into a book as the papers have it, and returns its length. */
size_t pack_book(const uint32_t *rows, size_t count, uint8_t *book);

#endif
