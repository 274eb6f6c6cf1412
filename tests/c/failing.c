/* The answer due of a book's first failing row, from what is known of each row by itself. */
#include "failing.h"

#include "reported.h"

static Answer as_due(uint32_t row, uint32_t judged) {
    static uint32_t answer[REMBILUNG_FIRST_FAILING_NUMBERS];
    answer[0] = row;
    answer[1] = judged;
    return gives(REMBILUNG_FIRST_FAILING_NUMBERS, (Bytes){answer, sizeof answer});
}

Answer fails_first_at(uint32_t row) {
    return as_due(row, row + 1);
}

Answer none_fails_of(uint32_t count) {
    return as_due(UINT32_MAX, count);
}

int row_fails(Bytes sheet, const uint32_t *numbers) {
    Reported found = reported(sheet, numbers);
    int failed = 0;
    for (int k = 0; k < REMBILUNG_CHECKS; k++)
        failed |= found.verdicts[k] == 2;
    return failed;
}
