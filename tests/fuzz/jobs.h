/* Jobs that stand, made from any bytes. */
#ifndef JOBS_H
#define JOBS_H

#include "fields.h"

/* What the numbers of a kind of job may be, for a scaffold as in a double row. */
typedef struct {
    const Kind *kind;
    uint32_t least[REMBILUNG_NUMBERS], most[REMBILUNG_NUMBERS];
} Ranges;

static const Ranges double_row = {&scaffold,
                                  {1, 1, 105, 60, 60, 2, 1, 1, 9, 1, 0, 10000, 0,
                                   50, 0, 100, 1, 1, 1, 0, 1, 8000, 1, 10, 100},
                                  {1, 2, 105, 200, 200, 3, 5000, 3, 10, 9, 10000, 30000, 5000,
                                   500, 2000, 4000, 3, 700, 2, 2000, 3, 100000, 5, 2000, 10000}};

/* Numbers within the ranges, from the bytes. */
static inline void numbers_of(const uint8_t *data, size_t size, const Ranges *ranges, uint32_t *numbers) {
    for (size_t k = 0; k < (size_t)ranges->kind->count; k++) {
        uint32_t any = 2 * k + 1 < size ? data[2 * k] + 256u * data[2 * k + 1] : (uint32_t)k;
        numbers[k] = ranges->least[k] + any % (ranges->most[k] - ranges->least[k] + 1);
    }
}

#endif
