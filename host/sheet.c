/* The column sheet that jobs are judged under. */
#include "sheet.h"

#include <stdio.h>

#include "fields.h"
#include "rembilung.h"
#include "report.h"
#include "sheets.h"

static void lend(Sheet *sheet, const uint8_t *bytes) {
    sheet->bytes = bytes;
    sheet->length = REMBILUNG_SHEET_BYTES;
}

void example_sheet(Sheet *sheet) {
    lend(sheet, sheet_c);
}

void test_sheet(Sheet *sheet) {
    lend(sheet, sheet_t);
}

int read_sheet(Sheet *sheet, const char *path) {
    sheet->bytes = sheet->own;
    return read_file(path, sheet->own, &sheet->length);
}

int sheet_for_depot(Sheet *sheet, const char *path) {
    if (path != NULL)
        return read_sheet(sheet, path);
    example_sheet(sheet);
    fputs("rembilung: judged under the example sheet C; before it counts, compare it with the printed code, "
          "or name a sheet with --sheet\n", stderr);
    return 1;
}

/* A sheet's refusals go before all others, so job J, which nothing else refuses, shows them. */
uint64_t check_sheet(const uint8_t *bytes, size_t length) {
    uint8_t report[REMBILUNG_REPORT_MOST];
    uint64_t done = report_on(bytes, length, job_j, report);
    return rembilung_refused(done) ? done : 0;
}
