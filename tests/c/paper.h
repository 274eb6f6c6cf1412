/* What the tests take from the papers by themselves: jobs, a support, reports, sheet T, and the groups of files and books. */
#ifndef PAPER_H
#define PAPER_H

#include "lent.h"
#include "rembilung.h"

enum { GROUPS_MOST = 5, FILE_ROOM = REMBILUNG_NUMBERS * GROUPS_MOST };

/* A job file, how many numbers it has, and where each begins; offset[count] is its length. */
typedef struct {
    uint8_t bytes[FILE_ROOM];
    size_t count;
    size_t offset[REMBILUNG_NUMBERS + 1];
} File;

/* A job with its report under sheet T. */
typedef struct {
    const char *name;
    const Kind *kind;
    const uint32_t *numbers;
    Bytes report;
} Judged;

typedef struct {
    uint8_t bytes[REMBILUNG_SHEET_BYTES];
} Sheet;

/* A book of up to 201 rows, and where each number begins: the count first, then column by column. */
enum { BOOK_NUMBERS_MOST = 201 * REMBILUNG_NUMBERS, BOOK_ROOM = GROUPS_MOST * (BOOK_NUMBERS_MOST + 1) };

typedef struct {
    size_t rows;
    uint8_t bytes[BOOK_ROOM];
    size_t offset[BOOK_NUMBERS_MOST + 2];
} Book;

extern const uint32_t job_j[REMBILUNG_NUMBERS];
/* An accepted single row of the vectors, and an accepted job whose every number is at its longest. */
extern const uint32_t single_job[REMBILUNG_NUMBERS], longest_job[REMBILUNG_NUMBERS];

/* The one support of request-05.txt. */
extern const uint32_t one_support[REMBILUNG_SUPPORT_NUMBERS];

Judged judged_j(void);
Judged judged_support(void);

/* Low group first, top bit set on every byte but the last; how many bytes. */
size_t put_groups(uint32_t number, uint8_t *to);
File file_of(const Kind *kind, const uint32_t *numbers);
Bytes file_bytes(const File *file);
/* The answer to a file that holds these numbers: 7 or 6 where its first asks for fewer or more than there are, else due. */
Answer file_answer(const File *file, uint32_t first, Answer due);
/* Three accepted rows, no two alike: J, the single row, the longest. */
enum { FEW_ROWS = 3 };
void put_few(uint32_t *rows);
Bytes row_bytes(const uint32_t *rows, size_t count);
/* The book of the first so many rows. */
void make_book(Book *book, const uint32_t *rows, size_t count);
Bytes book_bytes(const Book *book);
/* Where a number of a row begins, both from 0. */
size_t offset_in_book(const Book *book, size_t row, size_t number);
Sheet sheet_t(void);
Bytes sheet_bytes(const Sheet *sheet);
void set_entry(Sheet *sheet, int k, uint32_t thousandths);
uint32_t entry_of(const Sheet *sheet, int k);
/* J's report, from the file that has the papers' text: document 01's, with heights and column as request 1 of document 02
 * has them, and line 12 as request 5 has it. */
void read_report_j(const char *path);
Bytes report_j(void);

#endif
