/* Asks the library for a report, and reads one. */
#include "report.h"

#include <string.h>

#include "number.h"
#include "rembilung.h"

const char *const check_names[CHECKS] = {
    "transom moment",
    "transom deflection",
    "ledger moment",
    "ledger deflection",
    "slip at the coupler",
    "slenderness of the pole between ledgers",
    "pole stability without wind",
    "pole stability with wind",
    "tie force",
    "pole force against 40000 N",
    "pole force against what the ground under the pad bears",
    "height against the permitted height",
};

/* The check whose figure is the permitted height of the line "height": 0 with "height none", and of a support. */
enum { HEIGHT_CHECK = 12 };

/* What is still to be read; once good is 0, nothing more is. */
typedef struct {
    const char *at;
    size_t left;
    int good;
} Rest;

static void advance(Rest *rest, size_t length) {
    rest->at += length;
    rest->left -= length;
}

static int begins(const Rest *rest, const char *word) {
    return rest->good && strlen(word) <= rest->left && memcmp(rest->at, word, strlen(word)) == 0;
}

static void take_word(Rest *rest, const char *word) {
    rest->good = begins(rest, word);
    if (rest->good)
        advance(rest, strlen(word));
}

/* A number without leading zeros, and the byte that closes it. */
static uint32_t take_number(Rest *rest, char close) {
    const char *end = rest->good ? memchr(rest->at, close, rest->left) : NULL;
    uint32_t value = 0;
    size_t length = end == NULL ? 0 : (size_t)(end - rest->at);
    rest->good = end != NULL && read_number(rest->at, length, &value) == NUMBER_READ && (rest->at[0] != '0' || length == 1);
    if (rest->good)
        advance(rest, length + 1);
    return value;
}

static void take_check(Rest *rest, Report *report, uint32_t check) {
    if (take_number(rest, ' ') != check)
        rest->good = 0;
    report->verdicts[check - 1] = take_number(rest, ' ');
    report->figures[check - 1] = take_number(rest, '\n');
    if (report->verdicts[check - 1] > FAILS)
        rest->good = 0;
}

static void take_heights(Rest *rest, Report *report) {
    report->stands = !begins(rest, "height none\n");
    if (!report->stands) {
        take_word(rest, "height none\n");
        return;
    }
    take_word(rest, "height ");
    report->stability = take_number(rest, ' ');
    report->permitted = take_number(rest, '\n');
}

uint64_t report_on(const uint8_t *sheet, size_t sheet_length, const uint32_t *numbers, uint8_t report[REMBILUNG_REPORT_MOST]) {
    uint8_t file[REMBILUNG_FILE_MOST];
    uint64_t made = rembilung_write_job(numbers, file, sizeof file);
    if (rembilung_refused(made))
        return made;
    return rembilung_verdict(sheet, sheet_length, file, (size_t)made, report, REMBILUNG_REPORT_MOST);
}

int read_report(const uint8_t *bytes, size_t length, const Kind *kind, Report *report) {
    Rest rest = {(const char *)bytes, length, 1};
    memset(report, 0, sizeof *report);
    for (uint32_t check = 1; check <= CHECKS; check++)
        take_check(&rest, report, check);
    if (kind->has_heights)
        take_heights(&rest, report);
    take_word(&rest, "wind ");
    report->wind = take_number(&rest, ' ');
    report->moment = take_number(&rest, '\n');
    take_word(&rest, "column ");
    report->slenderness_tenths = take_number(&rest, '\n');
    return rest.good && rest.left == 0 && report->figures[HEIGHT_CHECK - 1] == report->permitted;
}

int first_failing(const Report *report) {
    int k = 0;
    while (k < CHECKS && report->verdicts[k] != FAILS)
        k++;
    return k < CHECKS ? k + 1 : 0;
}

int count_checks(const uint32_t *row, uint32_t number) {
    int count = 0;
    for (int k = 0; k < CHECKS; k++)
        count += row[k] == number;
    return count;
}

void say_checks(FILE *said, const uint32_t *row, uint32_t number) {
    int left = count_checks(row, number);
    const char *before = left == 1 ? "check " : "checks ";
    for (int k = 0; k < CHECKS; k++) {
        if (row[k] != number)
            continue;
        fprintf(said, "%s%d", before, k + 1);
        before = --left == 1 ? " and " : ", ";
    }
}
