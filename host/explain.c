/* Says in words what was refused, and why a word is no number. */
#include "explain.h"

#include <inttypes.h>

#include "rembilung.h"

const char entry_rule[] = "an entry is 1 to 1000 and no greater than the one before it, and entry 250 is at least 117";

static void say_sheet(Text *to, uint32_t refusal, uint32_t place) {
    if (refusal == 1) {
        text_add(to, "the column sheet has %" PRIu32 " bytes, and a column sheet has %d", place, REMBILUNG_SHEET_BYTES);
        return;
    }
    text_add(to, "the column sheet is damaged at entry %" PRIu32 " (bytes %" PRIu32 " and %" PRIu32 "): %s", place,
             2 * place, 2 * place + 1, entry_rule);
}

static void say_range(Text *to, uint32_t place, const Kind *kind, const uint32_t *numbers) {
    uint32_t k = (place - 1) % (uint32_t)kind->count;
    const Field *field = &kind->fields[k];
    text_add(to, "number %" PRIu32 ", %s, ", place, field->name);
    if (numbers != NULL)
        text_add(to, "is %" PRIu32, numbers[k]);
    else
        text_add(to, "is outside its range");
    text_add(to, "; it may be %s", field->range);
}

static void say_contradiction(Text *to, uint32_t place) {
    if (place == 10)
        text_add(to, "number 10, working layers, is greater than number 9, boarded layers");
    else
        text_add(to, "number 12, live load summed over layers, is less than number 11, greatest live load on one layer");
}

static void say_wall(Text *to, uint32_t place) {
    if (place == 20)
        text_add(to, "number 20, wall thickness: a single row needs a wall of more than 180 mm");
    else
        text_add(to, "number 21, wall make: a single row needs a sound wall, 1");
}

static void say_damaged(Text *to, const char *what, uint32_t place) {
    text_add(to, "the %s is damaged at offset %" PRIu32 ": the number there is missing, cut off, "
                 "not in its shortest form or above 4294967295", what, place);
}

static void say_file(Text *to, uint32_t refusal, uint32_t place, const Kind *kind) {
    if (refusal == 7)
        text_add(to, "the job file goes on after its %dth number, from offset %" PRIu32, kind->count, place);
    else
        say_damaged(to, "job file", place);
}

static void say_book(Text *to, uint32_t refusal, uint32_t place) {
    if (refusal == 9 && place == 0)
        text_add(to, "the book is damaged at offset 0: the number of its rows is cut off, not in its shortest form or above "
                     "4294967295");
    else if (refusal == 9)
        say_damaged(to, "book", place);
    else if (refusal == 10)
        text_add(to, "the book has %" PRIu32 " rows, and a book has at most %d", place, REMBILUNG_BOOK_ROWS_MOST);
    else
        text_add(to, "row %" PRIu32 " of the book, counting from 0, cannot stand", place);
}

static void say_record_bytes(Text *to, uint32_t bytes) {
    uint32_t whole = bytes / REMBILUNG_CELL_RECORD, after = bytes % REMBILUNG_CELL_RECORD;
    text_add(to, "the load cell's records have %" PRIu32 " bytes, whole records of %d bytes: %" PRIu32, bytes,
             REMBILUNG_CELL_RECORD, whole);
    if (after > 0)
        text_add(to, ", bytes after the last: %" PRIu32, after);
    text_add(to, "; a run has whole records alone, at most %d", REMBILUNG_CELL_RECORDS_MOST);
}

static void say_cells(Text *to, uint32_t refusal, uint32_t place) {
    uint64_t at = (uint64_t)place * REMBILUNG_CELL_RECORD;
    if (refusal == 13)
        text_add(to, "w, the number of records that a greatest push is taken over, is %" PRIu32 "; it may be 1 to %d", place,
                 REMBILUNG_CELL_W_MOST);
    else if (refusal == 14)
        text_add(to, "record %" PRIu32 ", counting from 0 (bytes %" PRIu64 " to %" PRIu64 "), cannot stand", place, at,
                 at + REMBILUNG_CELL_RECORD - 1);
    else
        say_record_bytes(to, place);
}

void explain(Text *to, uint64_t result, const Kind *kind, const uint32_t *numbers) {
    uint32_t refusal = rembilung_refusal(result), place = rembilung_place(result);
    if (refusal <= 2)
        say_sheet(to, refusal, place);
    else if (refusal == 3)
        say_range(to, place, kind, numbers);
    else if (refusal == 4)
        say_contradiction(to, place);
    else if (refusal == 5)
        say_wall(to, place);
    else if (refusal <= 7)
        say_file(to, refusal, place, kind);
    else if (refusal >= 13)
        say_cells(to, refusal, place);
    else if (refusal >= 9)
        say_book(to, refusal, place);
    else
        text_add(to, "a buffer is too short, and needs %" PRIu32, place);
}

void explain_line(FILE *to, uint64_t result, const Kind *kind, const uint32_t *numbers) {
    Text words = {{0}, 0};
    explain(&words, result, kind, numbers);
    fprintf(to, "rembilung: %s\n", words.bytes);
}

void add_if_support(Text *to, const uint32_t *numbers, const char *taken) {
    if (kind_of(numbers[0]) == &support)
        text_add(to, "; 3 marks a formwork support, and %s", taken);
}

void explain_number(Text *to, NumberKind kind, const char *bytes, size_t length, const Field *field) {
    text_add(to, "'");
    text_add_shown(to, bytes, length);
    text_add(to, "' is %s; it may be %s", kind == NUMBER_TOO_GREAT ? "too great" : "not a whole number", field->range);
}

const char *refusal_kind(uint32_t refusal) {
    static const char *const kinds[] = {
        "nothing",
        "the column sheet's length",
        "an entry of the column sheet",
        "a number outside its range",
        "two numbers that contradict each other",
        "a wall unfit for a single row",
        "a damaged job file",
        "a job file that goes on",
        "a buffer too short",
    };
    return refusal < sizeof kinds / sizeof kinds[0] ? kinds[refusal] : "a refusal that is not known";
}
