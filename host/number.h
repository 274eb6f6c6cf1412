/* Reads a whole number from its digits. */
#ifndef NUMBER_H
#define NUMBER_H

#include <stddef.h>
#include <stdint.h>

typedef enum { NUMBER_READ, NUMBER_NOT_WHOLE, NUMBER_TOO_GREAT } NumberKind;

/* Digits alone make a number, at least one of them, and zeros may lead. *value is set where NUMBER_READ is returned. */
NumberKind read_number(const char *bytes, size_t length, uint32_t *value);

#endif
