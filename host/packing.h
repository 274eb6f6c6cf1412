/* The rows of a depot's table on their way into a season's book. */
#ifndef PACKING_H
#define PACKING_H

#include <stddef.h>
#include <stdint.h>

#include "rembilung.h"
#include "rows.h"
#include "text.h"

/* One row more than a book has, so that the library is shown the first too many. */
#define KEPT_MOST (REMBILUNG_BOOK_ROWS_MOST + 1)

/* Where a row of the book stands in the table, and its name, as much of it as is ever shown. */
typedef struct {
    uint64_t row;
    char name[SHOWN_ROOM];
    size_t name_length;
} Origin;

/* The rows that are kept; those after the first too many are counted alone. */
typedef struct {
    Rows rows;           /* of these the caller says no more than whether a column may name the facades */
    const char *undone;  /* what is said not to be done where a row cannot be read */
    const char *if_book; /* what is said of a file that is a book, and no table */
    /* The rest begins as zeros. */
    uint32_t numbers[REMBILUNG_NUMBERS_OF(KEPT_MOST)];
    Origin from[KEPT_MOST];
    size_t kept;
    uint64_t unreadable;
} Packing;

/* Reads the table of that path, '-' being standard input; 0 where not all its rows are known, and that was said. */
int read_packing(Packing *packing, const char *path);

/* Two steps of it, for rows that are opened: reads all of them, and says of the last answer whether all rows are known. */
RowResult read_rows(Packing *packing);
int is_whole(const Packing *packing, RowResult last);

/* Makes the book of all rows. The answer is JUDGED, or, where they are refused and that was said, the exit status. */
int make_book(const Packing *packing, uint8_t book[REMBILUNG_BOOK_MOST], size_t *length);

#endif
