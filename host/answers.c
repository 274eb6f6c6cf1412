/* The table of answers: a row for each row that was read. */
#include "answers.h"

#include <inttypes.h>
#include <string.h>

/* A column keeps its place from one version to the next: the checks that were there first stand together, each later one at
 * the end. */
enum { FIRST_CHECKS = 11 };

/* The columns of a judged row: verdicts and figures, three heights, wind, its moment, tenths of slenderness. */
#define JUDGED_COLUMNS (2 * CHECKS + 6)

static void put_numbered(FILE *to, char separator, const char *word) {
    for (int k = 1; k <= FIRST_CHECKS; k++)
        fprintf(to, "%c%s %d", separator, word, k);
}

static void put_later_names(FILE *to, char separator) {
    for (int k = FIRST_CHECKS + 1; k <= CHECKS; k++)
        fprintf(to, "%ccheck %d%cfigure %d", separator, k, separator, k);
}

static void put_names(FILE *to, char separator, const char *const *names, size_t number) {
    for (size_t k = 0; k < number; k++)
        fprintf(to, "%c%s", separator, names[k]);
}

void put_answer_names(FILE *to, char separator) {
    static const char *const front[] = {"name", "result", "refusal", "place", "cell", "words", "first failing check"};
    static const char *const heights[] = {"height", "stability height", "permitted height"};
    static const char *const back[] = {"wind", "wind moment", "slenderness in tenths"};
    fputs("row", to);
    put_names(to, separator, front, sizeof front / sizeof front[0]);
    put_numbered(to, separator, "check");
    put_names(to, separator, heights, sizeof heights / sizeof heights[0]);
    put_numbered(to, separator, "figure");
    put_names(to, separator, back, sizeof back / sizeof back[0]);
    put_later_names(to, separator);
    putc('\n', to);
}

static void put_number(FILE *to, char separator, uint32_t number) {
    fprintf(to, "%c%" PRIu32, separator, number);
}

static void put_numbers(FILE *to, char separator, const uint32_t *numbers) {
    for (int k = 0; k < FIRST_CHECKS; k++)
        put_number(to, separator, numbers[k]);
}

static void put_later_checks(FILE *to, char separator, const Report *report) {
    for (int k = FIRST_CHECKS; k < CHECKS; k++) {
        put_number(to, separator, report->verdicts[k]);
        put_number(to, separator, report->figures[k]);
    }
}

static void put_text(FILE *to, char separator, const char *bytes, size_t length) {
    putc(separator, to);
    csv_put(to, bytes, length);
}

/* An empty cell stands where there is no such number. */
static void put_unless_zero(FILE *to, char separator, uint32_t number) {
    if (number > 0)
        put_number(to, separator, number);
    else
        putc(separator, to);
}

static void put_cell_at_fault(FILE *to, char separator, const Answer *answer) {
    char letters[CSV_LETTERS];
    putc(separator, to);
    if (answer->column == NO_COLUMN)
        return;
    csv_letters(answer->column, letters);
    fprintf(to, "%s%" PRIu64, letters, answer->row);
}

static void put_heights(FILE *to, char separator, const Answer *answer) {
    const Report *report = answer->report;
    put_number(to, separator, answer->height);
    if (report->stands)
        fprintf(to, "%c%" PRIu32 "%c%" PRIu32, separator, report->stability, separator, report->permitted);
    else
        fprintf(to, "%cnone%cnone", separator, separator);
}

static void put_report(FILE *to, char separator, const Answer *answer) {
    const Report *report = answer->report;
    put_numbers(to, separator, report->verdicts);
    put_heights(to, separator, answer);
    put_numbers(to, separator, report->figures);
    put_number(to, separator, report->wind);
    put_number(to, separator, report->moment);
    put_number(to, separator, report->slenderness_tenths);
    put_later_checks(to, separator, report);
}

static void put_empty(FILE *to, char separator, int number) {
    for (int k = 0; k < number; k++)
        putc(separator, to);
}

void put_answer(FILE *to, char separator, const Answer *answer) {
    fprintf(to, "%" PRIu64, answer->row);
    put_text(to, separator, answer->name, answer->name_length);
    put_text(to, separator, answer->result, strlen(answer->result));
    put_unless_zero(to, separator, answer->refusal);
    put_unless_zero(to, separator, answer->place);
    put_cell_at_fault(to, separator, answer);
    put_text(to, separator, answer->words.bytes, answer->words.length);
    put_unless_zero(to, separator, answer->report == NULL ? 0 : (uint32_t)first_failing(answer->report));
    if (answer->report != NULL)
        put_report(to, separator, answer);
    else
        put_empty(to, separator, JUDGED_COLUMNS);
    putc('\n', to);
}
