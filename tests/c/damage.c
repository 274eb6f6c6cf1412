/* Ways to damage a number in a file or a book. */
#include "damage.h"

#include <string.h>

const Damage damages[DAMAGES] = {
    {"80 00", {0x80, 0x00}, 2, 0},
    {"81 00", {0x81, 0x00}, 2, 0},
    {"FF 80 00", {0xFF, 0x80, 0x00}, 3, 0},
    {"81 80 80 80 00", {0x81, 0x80, 0x80, 0x80, 0x00}, 5, 0},
    {"80 80 80 80 10", {0x80, 0x80, 0x80, 0x80, 0x10}, 5, 0},
    {"FF FF FF FF 1F", {0xFF, 0xFF, 0xFF, 0xFF, 0x1F}, 5, 0},
    {"FF FF FF FF 7F", {0xFF, 0xFF, 0xFF, 0xFF, 0x7F}, 5, 0},
    {"FF FF FF FF 8F 00", {0xFF, 0xFF, 0xFF, 0xFF, 0x8F, 0x00}, 6, 0},
    {"80 80 80 80 80 01", {0x80, 0x80, 0x80, 0x80, 0x80, 0x01}, 6, 0},
    {"FF FF FF FF 0F", {0xFF, 0xFF, 0xFF, 0xFF, 0x0F}, 5, 1},
};

size_t replaced(Bytes whole, size_t first, size_t end, const Damage *damage, uint8_t *to) {
    const uint8_t *from = whole.at;
    memcpy(to, from, first);
    memcpy(to + first, damage->bytes, damage->length);
    memcpy(to + first + damage->length, from + end, whole.length - end);
    return first + damage->length + whole.length - end;
}
