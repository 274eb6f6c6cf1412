/* Jobs near another job, at the ends of ranges more often than not, and sheets at their limits. */
#include "vary.h"

#include <string.h>

/* Ends of the ranges, the widest where they hang on another field; what does not fit is refused and drawn anew. */
static const uint32_t ends[REMBILUNG_NUMBERS][2] = {
    {1, 2},     {1, 2},      {60, 155},  {60, 200}, {60, 200},   {2, 3},    {1, 5000},     {1, 3},    {1, 10},
    {1, 9},     {0, 10000},  {0, 30000}, {0, 5000}, {50, 500},   {0, 2000}, {100, 4000},   {1, 3},    {1, 2000},
    {1, 2},     {0, 2000},   {1, 3},     {8000, 100000},         {1, 5},    {10, 2000},    {100, 10000}};

static int stands(const uint32_t *numbers) {
    uint8_t file[REMBILUNG_FILE_MOST];
    return !rembilung_refused(rembilung_write_job(numbers, file, sizeof file));
}

static void change(uint32_t *numbers, uint32_t field) {
    uint32_t kind = from_to(0, 3), low = ends[field][0], high = ends[field][1];
    numbers[field] = kind == 0 ? low : kind == 1 ? high : from_to(low, high);
}

void vary(uint32_t *numbers) {
    uint32_t tried[REMBILUNG_NUMBERS];
    do {
        memcpy(tried, numbers, sizeof tried);
        for (uint32_t times = from_to(1, 3); times > 0; times--)
            change(tried, from_to(0, REMBILUNG_NUMBERS - 1));
    } while (!stands(tried));
    memcpy(numbers, tried, sizeof tried);
}

void any_job(uint32_t *numbers) {
    random_job(from_to(1, 2), numbers);
    if (from_to(0, 3) != 0)
        return;
    for (uint32_t field = 0; field < REMBILUNG_NUMBERS; field++) {
        uint32_t kept = numbers[field];
        numbers[field] = ends[field][from_to(0, 1)];
        if (!stands(numbers))
            numbers[field] = kept;
    }
}

void any_support(uint32_t *numbers) {
    static const uint32_t range[REMBILUNG_SUPPORT_NUMBERS][2] = {
        {3, 3},    {1, 2},      {60, 200},  {0, 100},   {60, 200},  {0, 60000}, {0, 60000},
        {0, 2000}, {100, 4000}, {0, 2000},  {1, 5},     {10, 2000}, {100, 10000}};
    int at_ends = from_to(0, 3) == 0;
    for (int k = 0; k < REMBILUNG_SUPPORT_NUMBERS; k++)
        numbers[k] = at_ends ? range[k][from_to(0, 1)] : from_to(range[k][0], range[k][1]);
}

static uint32_t entry_of(int sheet, int k) {
    static const uint32_t flat[] = {1000, 117};
    if (sheet < 2)
        return flat[sheet];
    if (sheet == 2)
        return k < 250 ? 1000 : 117;
    return 1000 - 4 * k > 150 ? (uint32_t)(1000 - 4 * k) : 150;
}

const uint8_t *sheet_number(int k) {
    static uint8_t limit[LIMIT_SHEETS][REMBILUNG_SHEET_BYTES];
    if (k >= LIMIT_SHEETS)
        return good_sheets[k - LIMIT_SHEETS];
    for (int at = 0; at < 251; at++) {
        limit[k][2 * at] = (uint8_t)(entry_of(k, at) % 256);
        limit[k][2 * at + 1] = (uint8_t)(entry_of(k, at) / 256);
    }
    return limit[k];
}

const char *sheet_name(int k) {
    static const char *const names[SHEETS] = {"every entry 1000", "every entry 117", "1000, the last 117", "sheet T",
                                              "random sheet 0", "random sheet 1", "random sheet 2", "random sheet 3"};
    return names[k];
}
