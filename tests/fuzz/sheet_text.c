/* Fuzzes the reader of column sheets as text: against a plain reader, and from a sheet to text and back. */
#define _POSIX_C_SOURCE 200809L
#include "fuzz.h"
#include "sheet_text.h"

#define GAPS ",; \t\r\n"

/* Remarks made blank, so that gaps alone part the words; the closing zero byte is not among the bytes. */
static char *without_remarks(const char *bytes, size_t length) {
    char *copy = malloc(length + 1);
    int remark = 0;
    MUST(copy != NULL);
    for (size_t k = 0; k < length; k++) {
        if (bytes[k] == '\n' || bytes[k] == '\r')
            remark = 0;
        if (bytes[k] == '#')
            remark = 1;
        copy[k] = remark ? ' ' : bytes[k];
    }
    copy[length] = '\0';
    return copy;
}

static int is_gap(char c) {
    return c != '\0' && strchr(GAPS, c) != NULL;
}

static size_t lines_before(const char *bytes, size_t at) {
    size_t lines = 1;
    for (size_t k = 0; k < at; k++)
        lines += bytes[k] == '\n' || (bytes[k] == '\r' && bytes[k + 1] != '\n');
    return lines;
}

/* The value of a word that is a whole number, at most 65,535; or -1. */
static long value_of(const char *word, size_t length) {
    long value = 0;
    for (size_t k = 0; k < length; k++) {
        if (word[k] < '0' || word[k] > '9')
            return -1;
        value = 10 * value + word[k] - '0';
        value = value > 65535 ? 65535 : value;
    }
    return value;
}

static void same_word(const SheetText *text, size_t k, const char *copy, size_t from, size_t to, const char *bytes) {
    long value = value_of(copy + from, to - from);
    const Word *word = value < 0 ? &text->bad : &text->words[k < SHEET_ENTRIES ? k : 0];
    if (value >= 0 && k >= SHEET_ENTRIES)
        return;
    MUST(word->bytes == bytes + from && word->length == to - from && word->line == lines_before(bytes, from));
    if (value >= 0)
        MUST(text->sheet[2 * k] + 256 * text->sheet[2 * k + 1] == value);
}

static void text_as_plain(const char *bytes, size_t length) {
    static SheetText text;
    char *copy = without_remarks(bytes, length);
    size_t at = length >= 3 && memcmp(bytes, "\xEF\xBB\xBF", 3) == 0 ? 3 : 0, count = 0;
    int whole = 1, found = read_sheet_text(bytes, length, &text);
    while (whole && at < length) {
        size_t from = at;
        while (at < length && !is_gap(copy[at]))
            at++;
        if (at > from) {
            same_word(&text, count, copy, from, at, bytes);
            whole = value_of(copy + from, at - from) >= 0;
            count += whole ? 1 : 0;
        } else {
            at++;
        }
    }
    MUST(found == whole && text.count == count);
    free(copy);
}

/* Any entries, of two bytes each, come back from the text that shows them. */
static void sheet_and_back(const uint8_t *data, size_t size) {
    static SheetText text;
    uint8_t sheet[REMBILUNG_SHEET_BYTES];
    char *shown = NULL;
    size_t length = 0;
    for (size_t k = 0; k < sizeof sheet; k++)
        sheet[k] = size == 0 ? 0 : data[k % size];
    FILE *to = open_memstream(&shown, &length);
    MUST(to != NULL);
    print_sheet_text(to, sheet);
    MUST(fclose(to) == 0);
    MUST(read_sheet_text(shown, length, &text) && text.count == SHEET_ENTRIES);
    MUST(memcmp(text.sheet, sheet, sizeof sheet) == 0);
    free(shown);
}

int LLVMFuzzerTestOneInput(const uint8_t *data, size_t size) {
    /* A copy with one zero byte after it, for the plain reader's look at the byte after a carriage return. */
    char *bytes = malloc(size + 1);
    MUST(bytes != NULL);
    memcpy(bytes, data, size);
    bytes[size] = '\0';
    text_as_plain(bytes, size);
    sheet_and_back(data, size);
    free(bytes);
    return 0;
}
