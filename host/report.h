/* Asks the library for a report, and reads one; whatever is not exactly a report is not read. */
#ifndef REPORT_H
#define REPORT_H

#include <stddef.h>
#include <stdint.h>
#include <stdio.h>

#include "fields.h"

#define CHECKS REMBILUNG_CHECKS
enum { NOT_DUE = 0, PASSES = 1, FAILS = 2 };

typedef struct {
    uint32_t verdicts[CHECKS]; /* of check k at k - 1 */
    uint32_t figures[CHECKS];
    int stands;                /* 0 where both heights are none, or the kind of job has none; both are then 0 here */
    uint32_t stability;
    uint32_t permitted;
    uint32_t wind;
    uint32_t moment;
    uint32_t slenderness_tenths;
} Report;

/* What each check is about. */
extern const char *const check_names[CHECKS];

/* What the library says of a scaffold job: its report and the length, or what is refused of the job, or else of the sheet. */
uint64_t report_on(const uint8_t *sheet, size_t sheet_length, const uint32_t *numbers, uint8_t report[REMBILUNG_REPORT_MOST]);

/* 1 where the bytes are a report on a job of this kind, to the last. */
int read_report(const uint8_t *bytes, size_t length, const Kind *kind, Report *report);

/* The first check that fails, from 1, or 0 where none does. */
int first_failing(const Report *report);

/* How many checks have this number of a row of twelve, and which they are, as "checks 7, 8 and 11", said. */
int count_checks(const uint32_t *row, uint32_t number);
void say_checks(FILE *said, const uint32_t *row, uint32_t number);

#endif
