/* Memory between two pages that may not be touched, lent from either end of it, with marked bytes on the open side. */
#ifndef GUARDED_H
#define GUARDED_H

#include <sys/mman.h>

#include "fuzz.h"

/* More than a book, its rows, load cells' records, or the bytes that the fuzzer brings, and the marked bytes beside them. */
#define GUARDED_BYTES 65536
#define GUARD_BYTES 4096
#define MARKED_BYTES 512
#define MARK 0xA5

typedef struct {
    uint8_t *bytes;
    uint8_t *lent;   /* what is lent now */
    uint8_t *marked; /* from here to there, all bytes were marked */
    uint8_t *end;
} Guarded;

static inline void guard(Guarded *guarded) {
    uint8_t *all = mmap(NULL, GUARDED_BYTES + 2 * GUARD_BYTES, PROT_NONE, MAP_PRIVATE | MAP_ANONYMOUS, -1, 0);
    MUST(all != MAP_FAILED && mprotect(all + GUARD_BYTES, GUARDED_BYTES, PROT_READ | PROT_WRITE) == 0);
    guarded->bytes = all + GUARD_BYTES;
}

/* So many marked bytes before the untouchable page at the end, or behind the one at the front. */
static inline void *lend(Guarded *guarded, size_t length, int at_end) {
    size_t all = length + MARKED_BYTES;
    MUST(all <= GUARDED_BYTES);
    guarded->marked = guarded->bytes + (at_end ? GUARDED_BYTES - all : 0);
    guarded->end = guarded->marked + all;
    guarded->lent = guarded->marked + (at_end ? MARKED_BYTES : 0);
    memset(guarded->marked, MARK, all);
    return guarded->lent;
}

/* Whether every byte is marked as it was, but for so many of those lent. */
static inline int untouched(const Guarded *guarded, size_t written) {
    static uint8_t marks[GUARDED_BYTES];
    size_t before = (size_t)(guarded->lent - guarded->marked), after = (size_t)(guarded->end - guarded->lent) - written;
    if (marks[0] != MARK)
        memset(marks, MARK, GUARDED_BYTES);
    return memcmp(guarded->marked, marks, before) == 0 && memcmp(guarded->lent + written, marks, after) == 0;
}

#endif
