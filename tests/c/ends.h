/* The answer due of a mild and a harsh job, from what is known of each by itself. */
#ifndef ENDS_H
#define ENDS_H

#include "paper.h"

/* Twelve outcomes and two heights; they stand until the next answer is made. */
Answer outcomes(const char *checks, uint32_t mild_height, uint32_t harsh_height);

/* From the reports of the whole call on both ends, which it has to accept: a check that is 0 or 1 at the harsh end passes
 * throughout, one that is 2 at both fails throughout, and else it is undecided. */
Answer outcomes_of_reports(Bytes sheet, const uint32_t *mild, const uint32_t *harsh);

/* J at both ends under sheet T, by hand: check 11 alone fails. */
Answer outcomes_j(void);

#endif
