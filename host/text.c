/* A text of bounded length, built piece by piece. */
#include "text.h"

#include <stdarg.h>
#include <stdint.h>
#include <stdio.h>

/* Of what is shown, the last character begins before this byte, and has at most four. */
#define SHOWN_MOST 40

void text_add(Text *text, const char *format, ...) {
    va_list parts;
    va_start(parts, format);
    size_t room = sizeof text->bytes - text->length;
    int wanted = vsnprintf(text->bytes + text->length, room, format, parts);
    va_end(parts);
    if (wanted > 0)
        text->length += (size_t)wanted < room ? (size_t)wanted : room - 1;
}

/* The length of the character of several bytes that begins with front, or 0 where none does. */
static size_t length_of(unsigned char front) {
    if (front < 0xC2 || front > 0xF4)
        return 0;
    return front < 0xE0 ? 2 : front < 0xF0 ? 3 : 4;
}

static int is_printable(uint32_t code, size_t length) {
    /* The least code of each length; below A0 are controls. */
    static const uint32_t least[] = {0, 0, 0xA0, 0x800, 0x10000};
    return code >= least[length] && code <= 0x10FFFF && (code < 0xD800 || code > 0xDFFF);
}

/* The length of the printable character at the front, or 0 where none stands there. */
static size_t printable(const char *bytes, size_t left) {
    unsigned char front = (unsigned char)bytes[0];
    if (front < 0x80)
        return front >= 0x20 && front < 0x7F;
    size_t length = length_of(front);
    if (length == 0 || length > left)
        return 0;
    uint32_t code = front & (0xFFu >> (length + 1));
    for (size_t k = 1; k < length; k++) {
        unsigned char next = (unsigned char)bytes[k];
        if ((next & 0xC0) != 0x80)
            return 0;
        code = code << 6 | (next & 0x3F);
    }
    return is_printable(code, length) ? length : 0;
}

void text_add_shown(Text *text, const char *bytes, size_t length) {
    size_t at = 0;
    while (at < length && at < SHOWN_MOST) {
        size_t taken = printable(bytes + at, length - at);
        if (taken > 0)
            text_add(text, "%.*s", (int)taken, bytes + at);
        else
            text_add(text, "\\x%02X", (unsigned)(unsigned char)bytes[at]);
        at += taken > 0 ? taken : 1;
    }
    if (at < length)
        text_add(text, "...");
}
