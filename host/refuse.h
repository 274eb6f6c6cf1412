/* A refusal of what a command was given. */
#ifndef REFUSE_H
#define REFUSE_H

#include <stdint.h>

#include "fields.h"
#include "text.h"

/* Prints the line "refused", number, place. */
void print_refused(uint32_t refusal, uint32_t place);

/* Prints the line and says these words on standard error; the answer is the exit status. */
int refuse_in_words(uint32_t refusal, uint32_t place, const Text *words);

/* The same, in the words that explain finds. numbers may be null. */
int refuse(uint64_t result, const Kind *kind, const uint32_t *numbers);

/* Says that what the library answered is none of its answers; the answer is the exit status. */
int unknown_answer(void);

#endif
