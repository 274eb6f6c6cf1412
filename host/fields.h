/* The numbers of a job of each kind in words, for messages and headers: what each is, and what it may be; and job J of
 * document 01. */
#ifndef FIELDS_H
#define FIELDS_H

#include "rembilung.h"

typedef struct {
    const char *name;
    const char *range;
} Field;

/* A kind of job: its name, what its first number may be, its numbers, whether its report has the line "height", and the call
 * that writes its file. */
typedef struct {
    const char *name;
    const char *first;
    int count;
    const Field *fields;
    int has_heights;
    uint64_t (*write)(const uint32_t *numbers, uint8_t *file, size_t file_len);
} Kind;

extern const Kind scaffold, support;
extern const uint32_t job_j[REMBILUNG_NUMBERS];

/* The kind that a first number makes, and the kind as which a job file is read. */
const Kind *kind_of(uint32_t first);
const Kind *kind_of_file(const uint8_t *file, size_t length);

#endif
