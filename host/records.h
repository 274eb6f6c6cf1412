/* Load cells' records as bytes: what each holds, as numbers and as a table, and the refusals of a run of them in words. */
#ifndef RECORDS_H
#define RECORDS_H

#include <stddef.h>
#include <stdint.h>
#include <stdio.h>

#include "rembilung.h"
#include "text.h"

/* The bytes of a greatest push in the library's answer. */
enum { PUSH_BYTES = 4 };

/* Four bytes, low byte first: a number of the library's answer, or the bits of a record's newtons. */
uint32_t low_first(const uint8_t *bytes);

/* The record of a push of a whole number of newtons up to 100,000, which a single holds as it is. */
void put_push(uint8_t *record, uint32_t newtons);

/* Prints the greatest pushes that the library gave, one a line. */
void print_pushes(FILE *to, const uint8_t *pushes, size_t count);

/* Prints a table: of each record its place from 0, its kind, its newtons as logged and its greatest push. */
void print_records(FILE *to, const uint8_t *records, const uint8_t *pushes, size_t count);

/* Says why the library refused a run, and of a record what is wrong with it. */
void explain_records(Text *to, uint64_t result, const uint8_t *records, size_t length);

#endif
