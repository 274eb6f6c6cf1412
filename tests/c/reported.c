/* What the whole call's report on a scaffold job says of it. */
#include "reported.h"

#include <stdio.h>

#include "check.h"

Reported reported(Bytes sheet, const uint32_t *numbers) {
    char text[REMBILUNG_REPORT_MOST + 1] = {0};
    Reported found = {{0}, REMBILUNG_NONE};
    File file = file_of(&scaffold, numbers);
    const char *at = text;
    unsigned height;
    expect_judged(sheet, file_bytes(&file), (uint8_t *)text);
    for (int k = 0; k < REMBILUNG_CHECKS; k++) {
        int used = 0;
        if (sscanf(at, "%*u %u %*u\n%n", &found.verdicts[k], &used) != 1)
            differs("the report has no line %d", k + 1);
        at += used;
    }
    if (sscanf(at, "height %u ", &height) == 1)
        found.height = height;
    return found;
}
