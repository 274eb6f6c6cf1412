/* What the host prints or says, in memory; it shows no control, so that nothing read can steer the terminal. */
#ifndef PRINTED_H
#define PRINTED_H

#include "fuzz.h"

/* Closed by a zero byte; it is freed by who asked for it. */
typedef struct {
    char *text;
    size_t length;
    FILE *to;
} Printed;

static inline void open_printed(Printed *printed) {
    printed->to = open_memstream(&printed->text, &printed->length);
    MUST(printed->to != NULL);
}

static inline const char *close_printed(Printed *printed) {
    MUST(fclose(printed->to) == 0 && strlen(printed->text) == printed->length);
    for (size_t k = 0; k < printed->length; k++)
        MUST(printed->text[k] == '\n' || ((unsigned char)printed->text[k] >= ' ' && printed->text[k] != 0x7F));
    return printed->text;
}

#endif
