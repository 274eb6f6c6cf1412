/* Shows what holds of every accepted job between a mild and a harsh one. */
#ifndef OUTCOMES_H
#define OUTCOMES_H

#include <stdint.h>
#include <stdio.h>

/* Whether these numbers are an answer of the library that this program knows. */
int are_outcomes(const uint32_t *answer);

/* A line a check, and one of both stability heights. */
void print_outcomes(FILE *to, const uint32_t *answer);

/* Says in a sentence what is to be done: nothing, or the scaffold has to be changed, or what some checks wait for. */
void say_conclusion(FILE *said, const uint32_t *answer, const uint32_t *mild, const uint32_t *harsh);

#endif
