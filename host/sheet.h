/* The column sheet that jobs are judged under: one's own from a file, or one of the program's. */
#ifndef SHEET_H
#define SHEET_H

#include <stddef.h>
#include <stdint.h>

#include "files.h"

typedef struct {
    const uint8_t *bytes;
    size_t length;
    uint8_t own[FILE_ROOM];
} Sheet;

/* Sheet C, an example that has to be compared with the printed code. */
void example_sheet(Sheet *sheet);
/* Sheet T of document 01, for tests only. */
void test_sheet(Sheet *sheet);
/* 1 where the file was read; where it was not, the reason was said on standard error. */
int read_sheet(Sheet *sheet, const char *path);

/* The same; where no file was named, its path being null, the sheet is C, and that is said. */
int sheet_for_depot(Sheet *sheet, const char *path);

/* What the library says of a sheet: 0, or its refusal 1 or 2 with the place. */
uint64_t check_sheet(const uint8_t *bytes, size_t length);

#endif
