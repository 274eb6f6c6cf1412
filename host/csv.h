/* Reads a table of comma-separated values row by row, in memory that does not grow; writes cells that read back the same. */
#ifndef CSV_H
#define CSV_H

#include <stddef.h>
#include <stdint.h>
#include <stdio.h>

/* No row is kept that is longer, its quotes and separators not counted, or has more cells; and how many bytes are read at
 * a time. Tests that have to reach these limits with little make them small. */
#ifndef CSV_ROW_BYTES
#define CSV_ROW_BYTES 65536
#define CSV_ROW_CELLS 1024
#define CSV_AHEAD 65536
#endif

/* Where the bytes come from: more puts up to room of them into a buffer and says how many, 0 at the end. */
typedef struct {
    size_t (*more)(void *from, char *into, size_t room);
    void *from;
} Source;

typedef enum {
    CSV_ROW,
    CSV_END,
    /* The row is not kept; the next one can be read. */
    CSV_ROW_TOO_LONG,
    CSV_TOO_MANY_CELLS,
    /* Where the row ends is not known, and nothing after it can be read: every later call answers the same. */
    CSV_OPEN_QUOTE,
    CSV_TEXT_AFTER_QUOTE,
    CSV_QUOTE_INSIDE,
    CSV_ZERO_BYTE,
    CSV_UTF_16
} CsvResult;

typedef struct {
    Source source;
    char separator;        /* comma, semicolon or tab, as the first row shows it */
    int marked;            /* whether the file begins with a byte order mark */
    uint64_t row;          /* the row last read, from 1, as a spreadsheet numbers it */
    uint64_t quote_line;   /* the line of the file, from 1, on which the last quoted cell begins */
    int broken;            /* whether a cell of the row has a line end inside */
    size_t cells;          /* how many cells the row has; where it is damaged, how many stand before the damage */
    /* The rest is the reader's own. */
    CsvResult stopped;
    CsvResult fault;
    int state;
    uint64_t line;
    int last;
    size_t ahead_at;
    size_t ahead_length;
    size_t used;
    size_t ends[CSV_ROW_CELLS];
    char bytes[CSV_ROW_BYTES];
    char ahead[CSV_AHEAD];
} Csv;

void csv_open(Csv *csv, Source source);

/* The next row. A carriage return, a line feed or both end a row, and the last row needs neither. */
CsvResult csv_read(Csv *csv);

/* A cell of the row last read, from 0, as it stands and without the spaces and tabs around it. */
const char *csv_cell(const Csv *csv, size_t cell, size_t *length);
const char *csv_trimmed(const Csv *csv, size_t cell, size_t *length);

/* Whether every cell of the row last read is empty. */
int csv_is_blank(const Csv *csv);

/* What is wrong with a row, where csv_read answered neither CSV_ROW nor CSV_END. */
const char *csv_fault(CsvResult result);

/* Writes a cell, in quotes where it needs them under any separator. */
void csv_put(FILE *to, const char *bytes, size_t length);

/* Writes the letters that a spreadsheet heads a column with: 0 is A, 26 is AA. */
#define CSV_LETTERS 8
void csv_letters(size_t column, char letters[CSV_LETTERS]);

#endif
