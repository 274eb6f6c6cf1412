/* What the fuzz harnesses share: the entry that libFuzzer calls, a property that must hold, and bytes in memory as a source. */
#ifndef FUZZ_H
#define FUZZ_H

#include <stddef.h>
#include <stdint.h>
#include <stdio.h>
#include <stdlib.h>
#include <string.h>

#include "csv.h"

int LLVMFuzzerTestOneInput(const uint8_t *data, size_t size);

#define MUST(property)                                                          \
    do {                                                                        \
        if (!(property)) {                                                      \
            fprintf(stderr, "%s:%d: not so: %s\n", __FILE__, __LINE__, #property); \
            abort();                                                            \
        }                                                                       \
    } while (0)

/* Bytes in memory, handed out at most so many at a time. */
typedef struct {
    const char *bytes;
    size_t left;
    size_t most;
} Memory;

static inline size_t more_of_memory(void *from, char *into, size_t room) {
    Memory *memory = from;
    size_t taken = room < memory->left ? room : memory->left;
    taken = taken < memory->most ? taken : memory->most;
    memcpy(into, memory->bytes, taken);
    memory->bytes += taken;
    memory->left -= taken;
    return taken;
}

static inline void open_memory(Csv *csv, Memory *memory) {
    Source source = {more_of_memory, memory};
    csv_open(csv, source);
}

#endif
