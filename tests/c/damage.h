/* Ways to damage a number in a file or a book. */
#ifndef DAMAGE_H
#define DAMAGE_H

#include "lent.h"

/* A number's bytes to stand in place of another's, and whether they are a number at all. */
typedef struct {
    const char *what;
    uint8_t bytes[7];
    size_t length;
    int is_number;
} Damage;

/* The last of them is a number, 4294967295, which no field takes. */
enum { DAMAGES = 10 };
extern const Damage damages[DAMAGES];

/* Writes the bytes with those from first to before end replaced; the new length. */
size_t replaced(Bytes whole, size_t first, size_t end, const Damage *damage, uint8_t *to);

#endif
