/* Says in words what was refused, and why a word is no number. */
#ifndef EXPLAIN_H
#define EXPLAIN_H

#include <stdint.h>
#include <stdio.h>

#include "fields.h"
#include "number.h"
#include "text.h"

/* A refusal: what, where, and what it may be, in the words of the job's kind. numbers may be null, where a job came as a file
 * and no value can be shown. */
void explain(Text *to, uint64_t result, const Kind *kind, const uint32_t *numbers);

/* A refusal on a line of its own. */
void explain_line(FILE *to, uint64_t result, const Kind *kind, const uint32_t *numbers);

/* Adds, where the numbers begin as a support's do, that they are one, and what is taken instead. */
void add_if_support(Text *to, const uint32_t *numbers, const char *taken);

/* A word of any bytes that read_number did not read. */
void explain_number(Text *to, NumberKind kind, const char *bytes, size_t length, const Field *field);

/* What an entry of a column sheet may be. */
extern const char entry_rule[];

/* What a refusal number is about, in a few words. */
const char *refusal_kind(uint32_t refusal);

#endif
