/* A season's book as bytes: how many of them decide what becomes of it, and its refusals in words. */
#ifndef BOOK_H
#define BOOK_H

#include <stddef.h>
#include <stdint.h>

#include "rembilung.h"
#include "text.h"

/* The count and every number of 200 rows at five bytes each, and one byte more: no later byte changes what the library says. */
#define BOOK_ROOM (5 * (1 + REMBILUNG_NUMBERS_OF(REMBILUNG_BOOK_ROWS_MOST)) + 1)

/* The numbers of a row, from 0, of a book that neither 9 nor 10 refuses. */
void row_of_book(const uint8_t *book, size_t length, uint32_t row, uint32_t *numbers);

/* Which of refusals 3, 4 and 5 a row of a book has, and where; not refused where it has none. */
uint64_t refusal_of_row(const uint32_t *numbers);

/* Of what kind of job a book is. */
extern const char book_takes[];

/* Whether the library takes these bytes, one at least, for a book. */
int is_book(const uint8_t *bytes, size_t length);

/* Says why the library refused a book. */
void explain_book(Text *to, uint64_t result, const uint8_t *book, size_t length);

/* Refuses it in these words, with what becomes of a table where the file may be one; the answer is the exit status. */
int refuse_book(uint64_t result, const uint8_t *book, size_t length, const char *if_table);

#endif
