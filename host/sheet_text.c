/* A column sheet as text, and back. */
#include "sheet_text.h"

#include <string.h>

/* Where reading stands in the text. */
typedef struct {
    const char *bytes;
    size_t length;
    size_t at;
    size_t line;
    int in_remark;
} Place;

static int is_line_end(char c) {
    return c == '\n' || c == '\r';
}

static int is_gap(char c) {
    return c == ',' || c == ';' || c == ' ' || c == '\t' || c == '#' || is_line_end(c);
}

/* Passes the byte of a gap or a remark; a carriage return counts with the line feed after it. */
static void pass(Place *place) {
    char c = place->bytes[place->at++];
    int pair = c == '\r' && place->at < place->length && place->bytes[place->at] == '\n';
    if (is_line_end(c) && !pair)
        place->line++;
    place->in_remark = (place->in_remark || c == '#') && !is_line_end(c);
}

static void pass_gap(Place *place) {
    while (place->at < place->length && (place->in_remark || is_gap(place->bytes[place->at])))
        pass(place);
}

static Word take_word(Place *place) {
    size_t from = place->at;
    while (place->at < place->length && !is_gap(place->bytes[place->at]))
        place->at++;
    Word word = {place->bytes + from, place->at - from, place->line};
    return word;
}

static void keep_entry(SheetText *text, Word word, uint32_t value) {
    size_t k = text->count++;
    if (k >= SHEET_ENTRIES)
        return;
    text->words[k] = word;
    text->sheet[2 * k] = (uint8_t)(value & 0xFF);
    text->sheet[2 * k + 1] = (uint8_t)(value >> 8);
}

static int keep_word(SheetText *text, Word word) {
    uint32_t value = 0;
    NumberKind kind = read_number(word.bytes, word.length, &value);
    if (kind == NUMBER_NOT_WHOLE) {
        text->bad = word;
        return 0;
    }
    keep_entry(text, word, kind == NUMBER_TOO_GREAT || value > UINT16_MAX ? UINT16_MAX : value);
    return 1;
}

int read_sheet_text(const char *bytes, size_t length, SheetText *text) {
    static const char mark[] = "\xEF\xBB\xBF";
    Place place = {bytes, length, 0, 1, 0};
    int whole = 1;
    memset(text, 0, sizeof *text);
    if (length >= 3 && memcmp(bytes, mark, 3) == 0)
        place.at = 3;
    pass_gap(&place);
    while (whole && place.at < length) {
        whole = keep_word(text, take_word(&place));
        pass_gap(&place);
    }
    return whole;
}

static void print_line(FILE *to, const uint8_t *sheet, int first, int last) {
    for (int k = first; k <= last; k++)
        fprintf(to, "%d ", sheet[2 * k] + 256 * sheet[2 * k + 1]);
    fprintf(to, "# %d to %d\n", first, last);
}

void print_sheet_text(FILE *to, const uint8_t *sheet) {
    for (int first = 0; first < SHEET_ENTRIES; first += 10)
        print_line(to, sheet, first, first + 9 < SHEET_ENTRIES ? first + 9 : SHEET_ENTRIES - 1);
}
