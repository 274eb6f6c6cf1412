/* Reads a whole number from its digits. */
#include "number.h"

static int all_digits(const char *bytes, size_t length) {
    size_t at = 0;
    while (at < length && bytes[at] >= '0' && bytes[at] <= '9')
        at++;
    return at == length && length > 0;
}

NumberKind read_number(const char *bytes, size_t length, uint32_t *value) {
    if (!all_digits(bytes, length))
        return NUMBER_NOT_WHOLE;
    /* Above 32 bits it stops, so that no number of digits is too many. */
    uint64_t sum = 0;
    for (size_t at = 0; at < length && sum <= UINT32_MAX; at++)
        sum = 10 * sum + (uint64_t)(bytes[at] - '0');
    if (sum > UINT32_MAX)
        return NUMBER_TOO_GREAT;
    *value = (uint32_t)sum;
    return NUMBER_READ;
}
