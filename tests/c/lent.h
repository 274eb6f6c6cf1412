/* Calls of the library with every buffer lent between guards, held to the answer that is due. */
#ifndef LENT_H
#define LENT_H

#include <stddef.h>
#include <stdint.h>

typedef struct {
    const void *at;
    size_t length;
} Bytes;

/* The answer due: a refusal with its place and nothing written, or refusal 0, the length in place, and what is written. */
typedef struct {
    uint32_t refusal;
    uint32_t place;
    Bytes written;
} Answer;

/* A kind of job: how many numbers it has, the greatest lengths of its file and its report, and the call that writes it. */
typedef struct {
    size_t count;
    size_t file_most;
    size_t report_most;
    const char *call;
    uint64_t (*write)(const uint32_t *numbers, uint8_t *file, size_t file_len);
} Kind;

extern const Kind scaffold, support;

/* The greatest length that a buffer of these calls can have, in bytes, the same of a book, of rows, of load cells' records and
 * of their output, and how far lengths are tried beyond the greatest that anything needs. */
enum {
    LENT_MOST = 4096,
    BOOK_LENT_MOST = 3 * LENT_MOST,
    ROWS_LENT_MOST = 7 * LENT_MOST,
    RECORDS_LENT_MOST = 16 * LENT_MOST,
    OUTPUT_LENT_MOST = 10 * LENT_MOST,
    BEYOND = 33
};

void make_pens(void);
Answer refused(uint32_t refusal, uint32_t place);
Answer gives(uint32_t length, Bytes written);
/* The answer due where the buffer has this length: refusal 8 names the whole length needed. */
Answer due_in(Answer due, size_t length);
void result_is(uint64_t result, Answer due);
void expect_verdict(Bytes sheet, Bytes file, size_t report_length, Answer due);
void expect_write(const Kind *kind, const uint32_t *numbers, size_t file_length, Answer due);
/* Room for 25 numbers is lent, whichever kind the file is of. */
void expect_read(Bytes file, Answer due);
/* The call is told of so many numbers. Of those behind the rows given none can be touched where the rows end at a page. */
void expect_write_book(Bytes rows, size_t numbers, size_t book_length, Answer due);
/* Room for whole rows is lent, as many as so many numbers have, and the call is told of all the numbers. */
void expect_read_book(Bytes book, size_t numbers, Answer due);
/* Of a mild and a harsh job; what is written are the numbers of the answer. */
void expect_between(Bytes sheet, const uint32_t *mild, const uint32_t *harsh, Answer due);
/* Of load cells' records; what is written are four bytes a record. */
void expect_cells(Bytes records, uint32_t w, size_t room, Answer due);
/* Of a book; what is written are the two numbers of the answer. */
void expect_first_failing(Bytes sheet, Bytes book, Answer due);
/* The whole call where only acceptance is known: the report that it wrote, whose length is returned, 0 on a refusal. */
size_t expect_judged(Bytes sheet, Bytes file, uint8_t *report);

#endif
