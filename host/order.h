/* What makes one scaffold job as harsh as another, field by field, in words. The library alone says whether it is. */
#ifndef ORDER_H
#define ORDER_H

#include <stdint.h>

#include "text.h"

/* Adds what refusal 12 is about: the field, counted from 1, its numbers at both ends, and what is asked of the harsh one. */
void explain_order(Text *to, uint32_t field, const uint32_t *mild, const uint32_t *harsh);

/* Whether number k, from 0, of a pair that stands is one that a check may wait for: a free one is not, and soils of one factor
 * are alike. */
int is_open(int k, const uint32_t *mild, const uint32_t *harsh);

#endif
