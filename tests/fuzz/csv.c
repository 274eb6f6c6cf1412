/* Fuzzes the reader of tables: the same rows whatever the size of the pieces, as a plain reader finds them, and once more
 * when they are written and read back. */
#define _POSIX_C_SOURCE 200809L
#include "fuzz.h"

/* A plain reader over bytes that lie whole in memory, written apart from the one that is tested. */
typedef struct {
    const char *at;
    const char *end;
    char separator;
    CsvResult result;
    size_t cells;
    size_t used;
    size_t ends[1 << 16];
    char bytes[1 << 16];
} Plain;

static Plain plain;
static Csv csv, other;

static void plain_keep(char c) {
    plain.bytes[plain.used++] = c;
}

static int closes(const char *at) {
    return at == plain.end || *at == plain.separator || *at == '\n' || *at == '\r';
}

/* A quoted cell; at is past its opening quote. The result is CSV_ROW where the cell is whole. */
static CsvResult plain_quoted(void) {
    for (;;) {
        if (plain.at == plain.end)
            return CSV_OPEN_QUOTE;
        char c = *plain.at++;
        if (c == '\0')
            return CSV_ZERO_BYTE;
        if (c == '"' && (plain.at == plain.end || *plain.at != '"'))
            break;
        plain.at += c == '"';
        plain_keep(c);
    }
    if (!closes(plain.at))
        return *plain.at == '\0' ? CSV_ZERO_BYTE : CSV_TEXT_AFTER_QUOTE;
    return CSV_ROW;
}

static CsvResult plain_unquoted(void) {
    for (; !closes(plain.at); plain.at++) {
        if (*plain.at == '\0')
            return CSV_ZERO_BYTE;
        if (*plain.at == '"')
            return CSV_QUOTE_INSIDE;
        plain_keep(*plain.at);
    }
    return CSV_ROW;
}

/* A row; CSV_END where there is none. */
static CsvResult plain_row(void) {
    plain.cells = plain.used = 0;
    if (plain.at == plain.end)
        return CSV_END;
    for (;;) {
        int quoted = plain.at < plain.end && *plain.at == '"';
        plain.at += quoted;
        CsvResult result = quoted ? plain_quoted() : plain_unquoted();
        if (result != CSV_ROW)
            return result;
        plain.ends[plain.cells++] = plain.used;
        if (plain.at == plain.end || *plain.at != plain.separator)
            break;
        plain.at++;
    }
    if (plain.end - plain.at >= 2 && plain.at[0] == '\r' && plain.at[1] == '\n')
        plain.at++;
    plain.at += plain.at < plain.end;
    return CSV_ROW;
}

static void same_row(const Csv *a, const Csv *b) {
    MUST(a->row == b->row && a->cells == b->cells && a->used == b->used && a->broken == b->broken);
    MUST(memcmp(a->ends, b->ends, a->cells * sizeof a->ends[0]) == 0);
    MUST(memcmp(a->bytes, b->bytes, a->used) == 0);
}

/* What is too long for the reader is so for the plain one, and otherwise both have the same. */
static void same_as_plain(CsvResult result) {
    CsvResult found = plain_row();
    if (result == CSV_ROW_TOO_LONG || result == CSV_TOO_MANY_CELLS) {
        MUST(found == CSV_ROW && (result == CSV_ROW_TOO_LONG ? plain.used > CSV_ROW_BYTES : plain.cells > CSV_ROW_CELLS));
        return;
    }
    MUST(found == result);
    if (result != CSV_ROW)
        return;
    MUST(plain.used <= CSV_ROW_BYTES && plain.cells == csv.cells && plain.used == csv.used);
    MUST(memcmp(plain.ends, csv.ends, csv.cells * sizeof csv.ends[0]) == 0);
    MUST(memcmp(plain.bytes, csv.bytes, csv.used) == 0);
}

static void write_row(FILE *to) {
    for (size_t cell = 0; cell < csv.cells; cell++) {
        size_t length;
        const char *bytes = csv_cell(&csv, cell, &length);
        if (cell > 0)
            putc(csv.separator, to);
        csv_put(to, bytes, length);
    }
    putc('\n', to);
}

/* Reads all rows in pieces of two sizes and with the plain reader, and writes those that were read. */
static void read_all(const char *bytes, size_t length, size_t piece, FILE *to) {
    Memory whole = {bytes, length, length + 1}, pieces = {bytes, length, piece};
    CsvResult result;
    open_memory(&csv, &whole);
    open_memory(&other, &pieces);
    MUST(csv.separator == other.separator && csv.marked == other.marked);
    plain.at = bytes + (csv.marked ? 3 : 0);
    plain.end = bytes + length;
    plain.separator = csv.separator;
    do {
        result = csv_read(&csv);
        MUST(result == csv_read(&other));
        if (result != CSV_UTF_16)
            same_as_plain(result);
        if (result == CSV_ROW) {
            same_row(&csv, &other);
            write_row(to);
        }
    } while (result < CSV_OPEN_QUOTE && result != CSV_END);
}

/* Rows that were written read back as they were, with the rows that were not kept left out. */
static void read_back(const char *bytes, size_t length, const char *written, size_t written_length) {
    Memory first = {bytes, length, length + 1}, again = {written, written_length, written_length + 1};
    CsvResult result;
    open_memory(&csv, &first);
    open_memory(&other, &again);
    MUST(!other.marked);
    other.separator = csv.separator;
    do {
        result = csv_read(&csv);
        if (result != CSV_ROW)
            continue;
        MUST(csv_read(&other) == CSV_ROW);
        other.row = csv.row;
        same_row(&csv, &other);
    } while (result < CSV_OPEN_QUOTE && result != CSV_END);
    MUST(csv_read(&other) == CSV_END);
}

int LLVMFuzzerTestOneInput(const uint8_t *data, size_t size) {
    char *written = NULL;
    size_t written_length = 0;
    if (size == 0 || size > sizeof plain.bytes)
        return 0;
    FILE *to = open_memstream(&written, &written_length);
    MUST(to != NULL);
    read_all((const char *)data + 1, size - 1, 1 + data[0] % 7u, to);
    MUST(fclose(to) == 0);
    read_back((const char *)data + 1, size - 1, written, written_length);
    free(written);
    return 0;
}
