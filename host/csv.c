/* Reads a table of comma-separated values row by row, and writes cells. */
#include "csv.h"

#include <string.h>

enum { CELL_BEGINS, IN_PLAIN, IN_QUOTED, AFTER_QUOTED };

/* What taking a byte answers while the row goes on. */
#define GOES_ON ((CsvResult)-1)

static void fill(Csv *csv) {
    size_t taken = 1;
    csv->ahead_at = csv->ahead_length = 0;
    while (taken > 0 && csv->ahead_length < CSV_AHEAD) {
        taken = csv->source.more(csv->source.from, csv->ahead + csv->ahead_length, CSV_AHEAD - csv->ahead_length);
        csv->ahead_length += taken;
    }
}

static int ahead_begins(const Csv *csv, const char *bytes, size_t length) {
    return csv->ahead_length >= length && memcmp(csv->ahead, bytes, length) == 0;
}

/* The next byte, or EOF; counts the lines. */
static int next(Csv *csv) {
    if (csv->ahead_at == csv->ahead_length)
        fill(csv);
    if (csv->ahead_at == csv->ahead_length)
        return EOF;
    int c = (unsigned char)csv->ahead[csv->ahead_at++];
    if (c == '\r' || (c == '\n' && csv->last != '\r'))
        csv->line++;
    csv->last = c;
    return c;
}

/* The separator that stands most often, outside quotes, in the first line that has any byte; a comma where none does. */
static char separator_of(const char *bytes, size_t length) {
    size_t commas = 0, semicolons = 0, tabs = 0, seen = 0;
    int quoted = 0, ended = 0;
    for (size_t at = 0; at < length && !ended; at++) {
        int line_end = !quoted && (bytes[at] == '\n' || bytes[at] == '\r');
        ended = line_end && seen > 0;
        seen += !line_end;
        quoted ^= bytes[at] == '"';
        commas += !quoted && bytes[at] == ',';
        semicolons += !quoted && bytes[at] == ';';
        tabs += !quoted && bytes[at] == '\t';
    }
    if (commas >= semicolons && commas >= tabs)
        return ',';
    return semicolons >= tabs ? ';' : '\t';
}

void csv_open(Csv *csv, Source source) {
    memset(csv, 0, sizeof *csv);
    csv->source = source;
    csv->line = 1;
    fill(csv);
    csv->marked = ahead_begins(csv, "\xEF\xBB\xBF", 3);
    if (csv->marked)
        csv->ahead_at = 3;
    csv->row = ahead_begins(csv, "\xFF\xFE", 2) || ahead_begins(csv, "\xFE\xFF", 2);
    csv->stopped = csv->row > 0 ? CSV_UTF_16 : CSV_ROW;
    csv->separator = separator_of(csv->ahead + csv->ahead_at, csv->ahead_length - csv->ahead_at);
}

static void keep(Csv *csv, int c) {
    if (csv->used == CSV_ROW_BYTES)
        csv->fault = CSV_ROW_TOO_LONG;
    else
        csv->bytes[csv->used++] = (char)c;
}

static void end_cell(Csv *csv) {
    if (csv->cells == CSV_ROW_CELLS)
        csv->fault = csv->fault == CSV_ROW ? CSV_TOO_MANY_CELLS : csv->fault;
    else
        csv->ends[csv->cells++] = csv->used;
    csv->state = CELL_BEGINS;
}

static CsvResult take_quoted(Csv *csv, int c) {
    if (c == EOF)
        return CSV_OPEN_QUOTE;
    if (c == '"') {
        csv->state = AFTER_QUOTED;
        return GOES_ON;
    }
    csv->broken |= c == '\n' || c == '\r';
    keep(csv, c);
    return GOES_ON;
}

/* A quote outside a quoted cell opens one, or is the second of two that stand for one, or is damage. */
static CsvResult take_quote(Csv *csv) {
    if (csv->state == IN_PLAIN)
        return CSV_QUOTE_INSIDE;
    if (csv->state == AFTER_QUOTED)
        keep(csv, '"');
    else
        csv->quote_line = csv->line;
    csv->state = IN_QUOTED;
    return GOES_ON;
}

static CsvResult take(Csv *csv, int c) {
    if (c == '\0')
        return CSV_ZERO_BYTE;
    if (csv->state == IN_QUOTED)
        return take_quoted(csv, c);
    if (c == '"')
        return take_quote(csv);
    if (c == EOF || c == '\n' || c == '\r') {
        end_cell(csv);
        return csv->fault;
    }
    if (c == csv->separator) {
        end_cell(csv);
        return GOES_ON;
    }
    if (csv->state == AFTER_QUOTED)
        return CSV_TEXT_AFTER_QUOTE;
    keep(csv, c);
    csv->state = IN_PLAIN;
    return GOES_ON;
}

/* The first byte of a row, past the line feed that belongs to the row before. */
static int first_of_row(Csv *csv) {
    int after_return = csv->last == '\r';
    int c = next(csv);
    return after_return && c == '\n' ? next(csv) : c;
}

CsvResult csv_read(Csv *csv) {
    int c = csv->stopped == CSV_ROW ? first_of_row(csv) : EOF;
    if (c == EOF)
        return csv->stopped == CSV_ROW ? CSV_END : csv->stopped;
    csv->row++;
    csv->cells = csv->used = 0;
    csv->broken = 0;
    csv->fault = CSV_ROW;
    csv->state = CELL_BEGINS;
    CsvResult result = take(csv, c);
    while (result == GOES_ON)
        result = take(csv, next(csv));
    if (result >= CSV_OPEN_QUOTE)
        csv->stopped = result;
    return result;
}

const char *csv_cell(const Csv *csv, size_t cell, size_t *length) {
    size_t from = cell == 0 ? 0 : csv->ends[cell - 1];
    *length = csv->ends[cell] - from;
    return csv->bytes + from;
}

static int is_space(char c) {
    return c == ' ' || c == '\t';
}

const char *csv_trimmed(const Csv *csv, size_t cell, size_t *length) {
    const char *bytes = csv_cell(csv, cell, length);
    while (*length > 0 && is_space(bytes[*length - 1]))
        --*length;
    for (; *length > 0 && is_space(bytes[0]); --*length)
        bytes++;
    return bytes;
}

int csv_is_blank(const Csv *csv) {
    size_t length = 0, cell = 0;
    for (; length == 0 && cell < csv->cells; cell++)
        csv_trimmed(csv, cell, &length);
    return length == 0;
}

#define DIGITS_AS_GIVEN(number) #number
#define DIGITS(number) DIGITS_AS_GIVEN(number)

const char *csv_fault(CsvResult result) {
    switch (result) {
    case CSV_ROW_TOO_LONG:
        return "the row has more than " DIGITS(CSV_ROW_BYTES) " bytes, and is not read";
    case CSV_TOO_MANY_CELLS:
        return "the row has more than " DIGITS(CSV_ROW_CELLS) " cells, and is not read";
    case CSV_OPEN_QUOTE:
        return "a cell begins with a quote that is never closed";
    case CSV_TEXT_AFTER_QUOTE:
        return "text follows the quote that closes a cell (a quote inside a cell is written twice)";
    case CSV_QUOTE_INSIDE:
        return "a quote stands inside a cell that does not begin with one";
    case CSV_ZERO_BYTE:
        return "a zero byte stands in the row; export the table as CSV in UTF-8";
    case CSV_UTF_16:
        return "the file is in UTF-16; export the table as CSV in UTF-8";
    default:
        return "nothing";
    }
}

/* Quotes are needed for a separator, a quote, a line end, a space or tab at an end, and are harmless for the rest. */
static int is_plain(const char *bytes, size_t length) {
    size_t at = 0;
    while (at < length && bytes[at] >= ' ' && bytes[at] <= '~' && strchr("\",;", bytes[at]) == NULL)
        at++;
    return at == length && (length == 0 || (bytes[0] != ' ' && bytes[length - 1] != ' '));
}

void csv_put(FILE *to, const char *bytes, size_t length) {
    if (is_plain(bytes, length)) {
        fwrite(bytes, 1, length, to);
        return;
    }
    putc('"', to);
    for (size_t at = 0; at < length; at++) {
        if (bytes[at] == '"')
            putc('"', to);
        putc(bytes[at], to);
    }
    putc('"', to);
}

void csv_letters(size_t column, char letters[CSV_LETTERS]) {
    size_t count = 0, rest = column + 1;
    char back[CSV_LETTERS];
    for (; rest > 0 && count < CSV_LETTERS - 1; rest = (rest - 1) / 26)
        back[count++] = (char)('A' + (rest - 1) % 26);
    for (size_t k = 0; k < count; k++)
        letters[k] = back[count - 1 - k];
    letters[count] = '\0';
}
