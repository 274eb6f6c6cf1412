/* The inputs of the measurements on a book's first failing row: a fixed, seeded set of books under sheets in classes. */
#ifndef FAILING_H
#define FAILING_H

#include "books.h"

/* On the first two classes the library's other calls are measured too: no row of 200 fails, and row 0 of 200 does. */
enum { NONE_FAILS, ROW_0_FAILS, ROW_100_FAILS, NONE_OF_20_FAILS, ONE_ROW, NO_BYTES, END_DAMAGED, LAST_ROW_BAD, FAILING_CLASSES };

/* A row as a job file, for the whole call that it is held to. */
typedef struct {
    uint8_t bytes[REMBILUNG_FILE_MOST];
    size_t length;
} RowFile;

/* The arguments of one call, the row that is due, and the job file of each row before anything was spoiled. */
typedef struct {
    const uint8_t *sheet;
    BookInput book;
    uint32_t fails;
    RowFile *files;
} FailingInput;

/* A class: its name, the rows of a book, how many books, the row that fails, or REMBILUNG_NONE, and what is done to a book that
 * stands to get there. */
typedef struct {
    const char *name;
    int rows, count;
    uint32_t fails;
    void (*spoil)(BookInput *);
} FailingClass;

extern const FailingClass failing_classes[FAILING_CLASSES];
extern FailingInput *failing[FAILING_CLASSES];

/* Fills failing, after the other inputs; the same on every run. */
void make_failing(void);

#endif
