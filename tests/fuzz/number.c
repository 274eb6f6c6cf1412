/* Fuzzes what reads a number, names a column and shows a cell: each against a plain way to the same. */
#include "fuzz.h"
#include "number.h"
#include "text.h"

static const char greatest[] = "4294967295";

/* By comparing digits as text, with no arithmetic but for the value itself. */
static NumberKind plain_kind(const char *bytes, size_t length) {
    for (size_t k = 0; k < length; k++)
        if (strchr("0123456789", bytes[k]) == NULL || bytes[k] == '\0')
            return NUMBER_NOT_WHOLE;
    if (length == 0)
        return NUMBER_NOT_WHOLE;
    for (; length > 0 && bytes[0] == '0'; length--)
        bytes++;
    if (length != strlen(greatest))
        return length < strlen(greatest) ? NUMBER_READ : NUMBER_TOO_GREAT;
    return memcmp(bytes, greatest, length) <= 0 ? NUMBER_READ : NUMBER_TOO_GREAT;
}

/* The digits of the value are those that were read. */
static void number(const char *bytes, size_t length) {
    uint32_t value = 77;
    char digits[16];
    NumberKind kind = read_number(bytes, length, &value);
    MUST(kind == plain_kind(bytes, length));
    if (kind != NUMBER_READ) {
        MUST(value == 77);
        return;
    }
    for (; length > 1 && bytes[0] == '0'; length--)
        bytes++;
    int wanted = snprintf(digits, sizeof digits, "%lu", (unsigned long)value);
    MUST((size_t)wanted == length && memcmp(digits, bytes, length) == 0);
}

/* A numeral of base 26 without a zero. */
static void letters(size_t column) {
    char found[CSV_LETTERS];
    size_t back = 0;
    csv_letters(column, found);
    for (size_t k = 0; found[k] != '\0'; k++) {
        MUST(found[k] >= 'A' && found[k] <= 'Z');
        back = 26 * back + (size_t)(found[k] - 'A' + 1);
    }
    MUST(back == column + 1);
}

/* How many bytes the character of UTF-8 at the front has; 0 where it is none, or a control. */
static size_t character(const unsigned char *c) {
    if (c[0] < 0x80)
        return c[0] >= 0x20 && c[0] != 0x7F;
    if (c[0] >= 0xC2 && c[0] <= 0xDF)
        return (c[1] & 0xC0) == 0x80 && !(c[0] == 0xC2 && c[1] < 0xA0) ? 2 : 0;
    if (c[0] >= 0xE0 && c[0] <= 0xEF)
        return (c[1] & 0xC0) == 0x80 && (c[2] & 0xC0) == 0x80 && !(c[0] == 0xE0 && c[1] < 0xA0) &&
                       !(c[0] == 0xED && c[1] > 0x9F) ? 3 : 0;
    if (c[0] >= 0xF0 && c[0] <= 0xF4)
        return (c[1] & 0xC0) == 0x80 && (c[2] & 0xC0) == 0x80 && (c[3] & 0xC0) == 0x80 &&
                       !(c[0] == 0xF0 && c[1] < 0x90) && !(c[0] == 0xF4 && c[1] > 0x8F) ? 4 : 0;
    return 0;
}

/* What is shown has printable characters alone, and printable ASCII is shown as it is. */
static void shown(const char *bytes, size_t length) {
    Text text = {{0}, 0};
    size_t at = 0, ascii = 0;
    text_add_shown(&text, bytes, length);
    MUST(text.length < TEXT_ROOM && text.bytes[text.length] == '\0' && strlen(text.bytes) == text.length);
    while (at < text.length) {
        size_t taken = character((const unsigned char *)text.bytes + at);
        MUST(taken > 0);
        at += taken;
    }
    while (ascii < length && bytes[ascii] >= ' ' && bytes[ascii] <= '~')
        ascii++;
    if (ascii == length && length <= 40)
        MUST(text.length == length && memcmp(text.bytes, bytes, length) == 0);
}

int LLVMFuzzerTestOneInput(const uint8_t *data, size_t size) {
    char *bytes = malloc(size + 1);
    MUST(bytes != NULL);
    memcpy(bytes, data, size);
    number(bytes, size);
    shown(bytes, size);
    letters(size >= 3 ? data[0] + 256u * data[1] + 65536u * data[2] : size);
    free(bytes);
    return 0;
}
