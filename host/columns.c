/* Which column of a table holds which number of a job. */
#include "columns.h"

#include <ctype.h>
#include <inttypes.h>
#include <string.h>

#include "fields.h"
#include "number.h"
#include "text.h"

static int same_name(const char *name, const char *bytes, size_t length) {
    size_t at = 0;
    while (at < length && name[at] != '\0' && name[at] == tolower((unsigned char)bytes[at]))
        at++;
    return at == length && name[at] == '\0';
}

/* The number of a job, from 0, that a cell names, or REMBILUNG_NUMBERS where it names none. */
static int field_named(const Csv *row, size_t cell) {
    size_t length;
    const char *bytes = csv_trimmed(row, cell, &length);
    int k = 0;
    while (k < REMBILUNG_NUMBERS && !same_name(scaffold.fields[k].name, bytes, length))
        k++;
    return k;
}

static int count_names(const Csv *row) {
    int names = 0;
    for (size_t cell = 0; cell < row->cells; cell++)
        names += field_named(row, cell) < REMBILUNG_NUMBERS;
    return names;
}

int has_names(const Csv *row) {
    return count_names(row) > 1;
}

static int any_number(const Csv *row) {
    int found = 0;
    for (size_t cell = 0; !found && cell < row->cells; cell++) {
        uint32_t value;
        size_t length;
        const char *bytes = csv_trimmed(row, cell, &length);
        found = read_number(bytes, length, &value) != NUMBER_NOT_WHOLE;
    }
    return found;
}

/* A column that is no number of a job: where facades are named, the first one with a name tells them apart; the others are
 * passed over. */
static void take_other(const Csv *row, size_t cell, Columns *columns, FILE *said) {
    int names = columns->named && columns->name == NO_COLUMN;
    char letters[CSV_LETTERS];
    Text shown = {{0}, 0};
    size_t length;
    const char *bytes = csv_trimmed(row, cell, &length);
    if (length == 0)
        return;
    csv_letters(cell, letters);
    text_add_shown(&shown, bytes, length);
    fprintf(said, "rembilung: column %s, '%s', is no number of a job and is %s\n", letters, shown.bytes,
            names ? "carried into the answers as the name" : "passed over");
    if (names)
        columns->name = cell;
}

/* 0 where the cell names a number of a job that an earlier one has named. */
static int take_cell(const Csv *row, size_t cell, Columns *columns, FILE *said) {
    int k = field_named(row, cell);
    if (k == REMBILUNG_NUMBERS) {
        take_other(row, cell, columns, said);
        return 1;
    }
    if (columns->of[k] != NO_COLUMN) {
        char first[CSV_LETTERS], second[CSV_LETTERS];
        csv_letters(columns->of[k], first);
        csv_letters(cell, second);
        fprintf(said, "rembilung: row %" PRIu64 ": columns %s and %s are both named '%s'\n", row->row, first, second,
                scaffold.fields[k].name);
        return 0;
    }
    columns->of[k] = cell;
    return 1;
}

static int none_missing(const Csv *row, const Columns *columns, FILE *said) {
    int missing = 0;
    for (int k = 0; k < REMBILUNG_NUMBERS; k++)
        if (columns->of[k] == NO_COLUMN) {
            fprintf(said, "rembilung: row %" PRIu64 ": no column is named '%s'\n", row->row, scaffold.fields[k].name);
            missing++;
        }
    return missing == 0;
}

static int by_names(const Csv *row, Columns *columns, FILE *said) {
    int once = 1;
    columns->headed = 1;
    columns->width = row->cells;
    for (int k = 0; k < REMBILUNG_NUMBERS; k++)
        columns->of[k] = NO_COLUMN;
    for (size_t cell = 0; cell < row->cells; cell++)
        once &= take_cell(row, cell, columns, said);
    return none_missing(row, columns, said) && once;
}

static void by_order(Columns *columns) {
    columns->headed = 0;
    columns->width = REMBILUNG_NUMBERS;
    for (size_t k = 0; k < REMBILUNG_NUMBERS; k++)
        columns->of[k] = k;
}

int columns_of(const Csv *first, Columns *columns, FILE *said) {
    columns->name = NO_COLUMN;
    if (count_names(first) > 0)
        return by_names(first, columns, said);
    if (!any_number(first)) {
        fprintf(said, "rembilung: row %" PRIu64 " has neither the names of a job's numbers nor numbers, "
                "between commas, semicolons or tabs; depot --template prints the names\n", first->row);
        return 0;
    }
    by_order(columns);
    return 1;
}

void print_template(FILE *to) {
    for (int k = 0; k < REMBILUNG_NUMBERS; k++)
        fprintf(to, "%s%s", k == 0 ? "" : ",", scaffold.fields[k].name);
    fputs("\n", to);
}
