/* What the whole call's report on a scaffold job says of it. */
#ifndef REPORTED_H
#define REPORTED_H

#include "paper.h"

/* The verdicts of the twelve checks, 0, 1 or 2, and the stability height or REMBILUNG_NONE. */
typedef struct {
    unsigned verdicts[REMBILUNG_CHECKS];
    uint32_t height;
} Reported;

/* Judges the job, which the whole call has to accept; a report that cannot be read is a failure of the case. */
Reported reported(Bytes sheet, const uint32_t *numbers);

#endif
