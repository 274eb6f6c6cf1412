/* What is measured: the library's calls and the plain C ones, and the lists of inputs that go through them. */
#ifndef CALLS_H
#define CALLS_H

#include "books.h"
#include "cells.h"
#include "failing.h"
#include "pairs.h"

enum { VERSIONS_MOST = 3 };

typedef uint64_t Verdict(const uint8_t *, size_t, const uint8_t *, size_t, uint8_t *, size_t);
typedef uint64_t Between(const uint8_t *, size_t, const uint32_t *, const uint32_t *, uint32_t *);
typedef uint64_t ReadJob(const uint8_t *, size_t, uint32_t *);
typedef uint64_t WriteBook(const uint32_t *, size_t, uint8_t *, size_t);
typedef uint64_t ReadBook(const uint8_t *, size_t, uint32_t *, size_t);
typedef uint64_t Cells(const uint8_t *, size_t, uint32_t, uint8_t *, size_t);
typedef uint64_t FirstFailing(const uint8_t *, size_t, const uint8_t *, size_t, uint32_t *);

/* The library first; then plain C by each compiler that there was, which does not read a job file by itself. */
typedef struct {
    const char *name;
    Verdict *verdict;
    Between *between;
    ReadJob *read_job;
    WriteBook *write_book;
    ReadBook *read_book;
    Cells *cells;
    FirstFailing *first_failing;
} Version;

extern const Version versions[];
extern const int version_count;

/* The lists: the classes of whole calls, the mix of them, the classes of books, those of pairs, those of load cells, those of
 * books with a first failing row, what is done with the accepted pairs by the calls on one job, and what other calls do with the
 * first two classes of those books, in this order: a whole call on each of the rows that pass; reading the book whose row 0 fails,
 * and a whole call on that row. */
enum { TWO_CALLS, INTO_NO_ROOM, TWO_READINGS, SHEET_ALONE, PAIR_PARTS };
enum { ROW_CALLS = PAIR_PARTS, BOOK_READ, ROW_0_CALL, PARTS };
enum { MIXED = CLASSES, BOOK_LISTS, PAIR_LISTS = BOOK_LISTS + BOOK_CLASSES, CELL_LISTS = PAIR_LISTS + PAIR_CLASSES,
       FAILING_LISTS = CELL_LISTS + CELL_CLASSES, PART_LISTS = FAILING_LISTS + FAILING_CLASSES, LISTS = PART_LISTS + PARTS };

/* A list has whole calls, or books to be written or read, or pairs of jobs, or runs of load cells, or books under a sheet, the
 * word of its call, and how many versions have it. */
typedef struct List List;
struct List {
    const char *name, *call;
    int versions, count, writes;
    const Input *input[MIX];
    const BookInput *book;
    const PairInput *pair;
    const CellInput *cell;
    const FailingInput *failing;
    uint64_t (*pass)(const Version *, const List *);
};

List list_of(int which);
/* The share of the mix, 0 for all but whole calls; and whether library to C has an aim of its own. */
int share_of(int which);
int has_aim(int which);
/* The class of books that a list has, or none. */
const BookClass *book_class_of(int which);
/* The class of load cells that a list has, or none. */
const CellClass *cell_class_of(int which);
/* The class of books with a first failing row that a list has, or none. */
const FailingClass *failing_class_of(int which);
/* The bytes of a list's books as they are written or read, on the mean. */
double bytes_of(int which);
/* Makes the inputs. */
void make_all(void);
/* Makes them, and ends the program where two versions differ in answer or bytes on any of them. */
void make_and_compare(void);
/* Sends a list through a version so many times; the sum of the answers, so that nothing can be left out. */
uint64_t send(const Version *version, const List *list, int times);

#endif
