/* Jobs near another job, at the ends of ranges more often than not, and sheets at their limits: for searches. */
#ifndef VARY_H
#define VARY_H

#include "inputs.h"

enum { LIMIT_SHEETS = 4, SHEETS = LIMIT_SHEETS + GOOD_SHEETS };

/* Changes one to three numbers of an accepted job so that it stays accepted. */
void vary(uint32_t *numbers);
/* A random accepted job; one of four has every number at an end of its range where that can be. */
void any_job(uint32_t *numbers);
/* A random accepted support; one of four has every number at an end of its range. */
void any_support(uint32_t *numbers);
/* Sheet number k, below SHEETS, and what it is; make_inputs goes before. */
const uint8_t *sheet_number(int k);
const char *sheet_name(int k);

#endif
