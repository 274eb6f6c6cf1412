/* The first row of a season's book that has a failed check: what the library answered, looked up for the words, and shown. */
#include "found.h"

#include <inttypes.h>
#include <string.h>

#include "fields.h"
#include "rembilung.h"
#include "text.h"

/* Whether the library reports on a row, and a check of it fails. */
static int fails(const uint32_t *numbers, const Sheet *sheet, Report *report) {
    uint8_t bytes[REMBILUNG_REPORT_MOST];
    uint64_t length = report_on(sheet->bytes, sheet->length, numbers, bytes);
    return !rembilung_refused(length) && read_report(bytes, (size_t)length, &scaffold, report) && first_failing(report) > 0;
}

int look_up(Found *found, const uint32_t *answer, const Sheet *sheet, const uint8_t *book, size_t length) {
    static uint32_t numbers[REMBILUNG_NUMBERS_OF(REMBILUNG_BOOK_ROWS_MOST)];
    uint64_t rows = rembilung_read_book(book, length, numbers, sizeof numbers / sizeof numbers[0]);
    memset(found, 0, sizeof *found);
    if (rows > REMBILUNG_BOOK_ROWS_MOST)
        return 0;
    found->row = answer[REMBILUNG_FIRST_FAILING_ROW];
    found->judged = answer[REMBILUNG_FIRST_FAILING_JUDGED];
    found->rows = (uint32_t)rows;
    found->bytes = length;
    if (found->row == REMBILUNG_NONE)
        return found->judged == found->rows;
    return found->row < found->rows && found->judged == found->row + 1 &&
           fails(numbers + REMBILUNG_NUMBERS_OF(found->row), sheet, &found->report);
}

void print_found(FILE *to, const Found *found) {
    if (found->row == REMBILUNG_NONE)
        fputs("row none\n", to);
    else
        fprintf(to, "row %" PRIu32 "\n", found->row);
    fprintf(to, "judged %" PRIu32 "\n", found->judged);
    for (int k = 0; k < CHECKS; k++)
        if (found->report.verdicts[k] == FAILS)
            fprintf(to, "%d %s\n", k + 1, check_names[k]);
}

/* As in 1st, 2nd, 3rd, 4th, and 11th, 12th, 13th. */
static const char *ordinal_end(uint32_t number) {
    static const char *const ends[] = {"th", "st", "nd", "rd"};
    uint32_t last = number / 10 % 10 == 1 ? 0 : number % 10;
    return ends[last < sizeof ends / sizeof ends[0] ? last : 0];
}

/* Begins the sentence with the row's place: in the table where there is one, with its name, and in the book. */
static void say_place(FILE *said, uint32_t row, const Packing *table) {
    Text name = {{0}, 0};
    if (table == NULL) {
        fprintf(said, "row %" PRIu32 " of the book", row);
        return;
    }
    const Origin *from = &table->from[row];
    text_add_shown(&name, from->name, from->name_length);
    fprintf(said, "row %" PRIu64 " of the table, ", from->row);
    if (name.length > 0)
        fprintf(said, "'%s', ", name.bytes);
    fprintf(said, "row %" PRIu32, row);
}

static void say_failing(FILE *said, const Found *found, const Packing *table) {
    uint32_t after = found->rows - found->judged;
    say_place(said, found->row, table);
    fprintf(said, " counting from 0, the %" PRIu32 "%s of %" PRIu32 " row%s, fails ", found->judged, ordinal_end(found->judged),
            found->rows, found->rows == 1 ? "" : "s");
    say_checks(said, found->report.verdicts, FAILS);
    if (after == 1)
        fputs("; the row after it was not judged", said);
    else if (after > 1)
        fprintf(said, "; the %" PRIu32 " rows after it were not judged", after);
}

void say_found(FILE *said, const Found *found, const Packing *table) {
    fputs("rembilung: ", said);
    if (found->rows == 0)
        fprintf(said, "the %s has no %s: an empty season, of which no row fails and none was judged",
                table == NULL ? "book" : "table", found->bytes == 0 ? "bytes" : "rows");
    else if (found->row == REMBILUNG_NONE)
        fprintf(said, "no row fails a check; rows judged: %" PRIu32, found->judged);
    else
        say_failing(said, found, table);
    fputs("\n", said);
}
