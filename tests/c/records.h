/* Load cells' records, and what is due of a run of them, worked out from the papers alone in whole numbers. */
#ifndef RECORDS_H
#define RECORDS_H

#include "lent.h"
#include "rembilung.h"

enum {
    PUSH = 1,
    PULL = 2,
    SILENT = 3,
    RECORD_BYTES = 8,
    RECORDS_MOST = 8000,
    W_MOST = 500,
    /* One record more than a run may have, and bytes of another. */
    RUN_ROOM = RECORD_BYTES * (RECORDS_MOST + 2)
};

/* The bits of some newtons: 1, the least above 0, the greatest that stand, and the next. */
#define NEWTONS_1 UINT32_C(0x3F800000)
#define NEWTONS_LEAST UINT32_C(1)
#define NEWTONS_MOST UINT32_C(0x47C35000)
#define NEWTONS_ABOVE UINT32_C(0x47C35001)

typedef struct {
    uint8_t bytes[RUN_ROOM];
    size_t count;
} Run;

/* A record at a place, from 0; the run has at least so many records then. */
void set_record(Run *run, size_t place, uint8_t kind, uint32_t bits);
/* The bits of a whole number of newtons up to 100,000. */
uint32_t bits_of(uint32_t newtons);
Bytes run_bytes(const Run *run);

/* Whether newtons of a push or a pull stand, and the least whole number that is not below those of a push that stands. */
int newtons_stand(uint32_t bits);
uint32_t whole_newtons(uint32_t bits);

/* The answer due in a buffer of this length: the first of 13, 15, 14, 8, or the greatest push of each stretch, each looked
 * for afresh. What is written stands until the next answer is made. */
Answer greatest_pushes(Bytes records, uint32_t w, size_t room);
/* The same where the numbers due are known; there are as many as records. */
Answer pushes(const uint32_t *numbers, size_t count);

#endif
