/* The faults of a book that can meet in one call, and which of them is refused first. */
#ifndef BOOK_FAULTS_H
#define BOOK_FAULTS_H

#include "paper.h"

/* A bit each, in the order in which they are tried; a bad row is row 1 of three. */
enum { COUNT_DAMAGED = 1, COUNT_HIGH = 2, DAMAGED = 4, EXTRA = 8, BAD_ROW = 16, BOOK_FAULTS = 32 };

/* A book with faults, and where its damaged number begins. */
typedef struct {
    uint8_t bytes[BOOK_ROOM];
    size_t length, damaged_at;
} FaultyBook;

/* Makes row 1 of these rows a bad one: its first and its last number are in no range. */
void spoil_row(uint32_t *rows);
/* The book of three rows with the faults of its bytes; a bad row stands among the rows already. */
void put_faulty(const uint32_t *rows, int faults, FaultyBook *to);
/* The refusal due, or refusal 0 where nothing is refused. */
Answer faulty_due(int faults, const FaultyBook *book);

#endif
