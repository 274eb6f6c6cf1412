/* The answer due of a mild and a harsh job, from what is known of each by itself. */
#include "ends.h"

#include "check.h"
#include "reported.h"

static uint32_t answer[REMBILUNG_BETWEEN_NUMBERS];

static Answer as_due(uint32_t mild_height, uint32_t harsh_height) {
    answer[REMBILUNG_BETWEEN_MILD_HEIGHT] = mild_height;
    answer[REMBILUNG_BETWEEN_HARSH_HEIGHT] = harsh_height;
    return gives(REMBILUNG_BETWEEN_NUMBERS, (Bytes){answer, sizeof answer});
}

Answer outcomes(const char *checks, uint32_t mild_height, uint32_t harsh_height) {
    for (int k = 0; k < REMBILUNG_CHECKS; k++)
        answer[k] = (uint32_t)(checks[k] - '0');
    return as_due(mild_height, harsh_height);
}

static uint32_t outcome_of(int check, unsigned mild, unsigned harsh) {
    if (mild == 2 && harsh != 2)
        differs("check %d fails at the mild end and not at the harsh", check);
    return harsh != 2 ? 1 : mild == 2 ? 2 : 3;
}

Answer outcomes_of_reports(Bytes sheet, const uint32_t *mild, const uint32_t *harsh) {
    Reported first = reported(sheet, mild), second = reported(sheet, harsh);
    for (int k = 0; k < REMBILUNG_CHECKS; k++)
        answer[k] = outcome_of(k + 1, first.verdicts[k], second.verdicts[k]);
    if (first.height == REMBILUNG_NONE ? second.height != REMBILUNG_NONE
                                       : second.height != REMBILUNG_NONE && second.height > first.height)
        differs("the stability height is greater at the harsh end");
    return as_due(first.height, second.height);
}

Answer outcomes_j(void) {
    return outcomes("111111111121", 3277, 3277);
}
