/* The words of a command line as the numbers of a job. */
#ifndef KEYED_H
#define KEYED_H

#include <stdint.h>

#include "fields.h"

/* Whether a word is digits alone, and so a number and no name of a file. */
int is_digits(const char *word);

/* Reads as many words as a job of this kind has numbers; 0 where one of them is none, and that was said on standard error.
 * whose says before a number whose it is, and is empty where there is one job. */
int read_words(char **words, const Kind *kind, const char *whose, uint32_t *numbers);

#endif
