/* What the calls in plain C have in common: a scaffold job, its ranges, refusals and the groups of a job file's numbers. */
#ifndef PLAIN_JOB_H
#define PLAIN_JOB_H

#include <stddef.h>
#include <stdint.h>

enum { NUMBERS = 25 };
enum { DOUBLE_ROW = 1, SINGLE_ROW = 2, OPEN = 1, HALF_CLOSED = 2 };

typedef struct {
    uint32_t family, tube, spacing, bay, step, interval, height, boards, boarded, working, live_one, live_all, nets,
        structure, wind, height_factor, enclosure, shield, wall, thickness, make, tie_capacity, soil, ground, pad;
} Job;

typedef struct {
    uint32_t low, high;
} Range;

/* Ranges by field; 3, 7 and 18 hang on another field and are widest here. */
static const Range ranges[NUMBERS] = {
    {1, 2},    {1, 2},      {60, 155},  {60, 200},  {60, 200},
    {2, 3},    {1, 5000},   {1, 3},     {1, 10},    {1, 9},
    {0, 10000}, {0, 30000}, {0, 5000},  {50, 500},  {0, 2000},
    {100, 4000}, {1, 3},    {1, 2000},  {1, 2},     {0, 2000},
    {1, 3},    {8000, 100000}, {1, 5},  {10, 2000}, {100, 10000}};

static inline uint64_t refuse(uint64_t refusal, uint64_t place) {
    return refusal << 32 | (place > UINT32_MAX ? UINT32_MAX : place);
}

/* Reads one number and moves on behind it; 0 where it is damaged. */
static inline int read_number(const uint8_t *file, size_t length, size_t *at, uint32_t *number) {
    uint64_t value = 0;
    for (size_t k = 0; k < 5 && *at + k < length; k++) {
        uint8_t byte = file[*at + k];
        value |= (uint64_t)(byte & 0x7F) << (7 * k);
        if (byte < 0x80) {
            *at += k + 1;
            *number = (uint32_t)value;
            return value <= UINT32_MAX && (byte != 0 || k == 0);
        }
    }
    return 0;
}

static inline int between(uint32_t number, uint32_t low, uint32_t high) {
    return low <= number && number <= high;
}

/* The three ranges that hang on another field. */
static inline int spacing_stands(const Job *j) {
    if (j->family == DOUBLE_ROW)
        return j->spacing == 105 || j->spacing == 130 || j->spacing == 155;
    return between(j->spacing, 60, 150);
}

static inline int height_stands(const Job *j) {
    return between(j->height, 1, j->family == DOUBLE_ROW ? 5000 : 2400);
}

static inline int shield_stands(const Job *j) {
    if (j->enclosure == OPEN)
        return between(j->shield, 1, 2000);
    return between(j->shield, 1, j->enclosure == HALF_CLOSED ? 700 : 1000);
}

/* Refusals 3, 4 and 5, or 0. */
static inline uint64_t examine_job(const uint32_t *numbers, const Job *j) {
    for (int k = 0; k < NUMBERS; k++) {
        int stands = between(numbers[k], ranges[k].low, ranges[k].high);
        if (!stands || (k == 2 && !spacing_stands(j)) || (k == 6 && !height_stands(j)) || (k == 17 && !shield_stands(j)))
            return refuse(3, (uint64_t)k + 1);
    }
    if (j->working > j->boarded)
        return refuse(4, 10);
    if (j->live_all < j->live_one)
        return refuse(4, 12);
    if (j->family == SINGLE_ROW && j->thickness <= 180)
        return refuse(5, 20);
    if (j->family == SINGLE_ROW && j->make != 1)
        return refuse(5, 21);
    return 0;
}

#endif
