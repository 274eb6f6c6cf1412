/* Load cells' records as bytes. The library alone says which are refused; a record is looked up for the words. */
#include "records.h"

#include <inttypes.h>
#include <math.h>
#include <stdlib.h>
#include <string.h>

#include "explain.h"
#include "fields.h"

enum { DIGITS_LEAST = 6, DIGITS_MOST = 9, DIGITS_ROOM = 24 };

uint32_t low_first(const uint8_t *bytes) {
    return bytes[0] | (uint32_t)bytes[1] << 8 | (uint32_t)bytes[2] << 16 | (uint32_t)bytes[3] << 24;
}

static float newtons_of(const uint8_t *record) {
    uint32_t bits = low_first(record + 4);
    float newtons;
    memcpy(&newtons, &bits, sizeof newtons);
    return newtons;
}

void put_push(uint8_t *record, uint32_t newtons) {
    float value = (float)newtons;
    uint32_t bits;
    memcpy(&bits, &value, sizeof bits);
    memset(record, 0, REMBILUNG_CELL_RECORD);
    record[0] = REMBILUNG_CELL_PUSH;
    for (int k = 0; k < 4; k++)
        record[4 + k] = (uint8_t)(bits >> (8 * k));
}

static const char *kind_of_record(const uint8_t *record) {
    static const char *const kinds[] = {
        [REMBILUNG_CELL_PUSH] = "push", [REMBILUNG_CELL_PULL] = "pull", [REMBILUNG_CELL_SILENT] = "silent"};
    int known = record[0] >= REMBILUNG_CELL_PUSH && record[0] <= REMBILUNG_CELL_SILENT;
    return known ? kinds[record[0]] : NULL;
}

/* As few digits as read back as the same value, nine at most, and no fewer than six, so that 100000 has no exponent. */
static void put_newtons(char digits[DIGITS_ROOM], float newtons) {
    int count = DIGITS_LEAST;
    snprintf(digits, DIGITS_ROOM, "%.*g", count, (double)newtons);
    while (count < DIGITS_MOST && strtof(digits, NULL) != newtons)
        snprintf(digits, DIGITS_ROOM, "%.*g", ++count, (double)newtons);
}

void print_pushes(FILE *to, const uint8_t *pushes, size_t count) {
    for (size_t k = 0; k < count; k++)
        fprintf(to, "%" PRIu32 "\n", low_first(pushes + PUSH_BYTES * k));
}

static void print_record(FILE *to, size_t place, const uint8_t *record, uint32_t push) {
    char digits[DIGITS_ROOM];
    const char *kind = kind_of_record(record);
    put_newtons(digits, newtons_of(record));
    fprintf(to, "%zu,%s,%s,%" PRIu32 "\n", place, kind == NULL ? "unknown" : kind, digits, push);
}

void print_records(FILE *to, const uint8_t *records, const uint8_t *pushes, size_t count) {
    fputs("record,kind,newtons,maximum\n", to);
    for (size_t k = 0; k < count; k++)
        print_record(to, k, records + REMBILUNG_CELL_RECORD * k, low_first(pushes + PUSH_BYTES * k));
}

static void explain_newtons(Text *to, float newtons) {
    char digits[DIGITS_ROOM];
    put_newtons(digits, newtons);
    if (isnan(newtons))
        text_add(to, "its newtons are no number");
    else
        text_add(to, "its newtons are %s", isinf(newtons) ? newtons < 0 ? "minus infinity" : "infinity" : digits);
    text_add(to, "; they may be 0 to 100000");
}

/* The first of kind, zero bytes and newtons that is wrong, after all that stands there. */
static void explain_record(Text *to, const uint8_t *record) {
    text_add(to, ": its bytes are");
    for (int k = 0; k < REMBILUNG_CELL_RECORD; k++)
        text_add(to, " %02X", record[k]);
    text_add(to, " (hexadecimal); ");
    if (kind_of_record(record) == NULL)
        text_add(to, "kind %d is none of 1 (push), 2 (pull) and 3 (silence)", record[0]);
    else if (record[1] != 0 || record[2] != 0 || record[3] != 0)
        text_add(to, "the three bytes after its kind have to be zero");
    else if (record[0] == REMBILUNG_CELL_SILENT)
        text_add(to, "the four bytes of newtons have to be zero in silence");
    else
        explain_newtons(to, newtons_of(record));
}

void explain_records(Text *to, uint64_t result, const uint8_t *records, size_t length) {
    uint32_t place = rembilung_place(result);
    explain(to, result, &scaffold, NULL);
    if (rembilung_refusal(result) == 14 && place < length / REMBILUNG_CELL_RECORD)
        explain_record(to, records + REMBILUNG_CELL_RECORD * (size_t)place);
}
