/* The words of a command line as the numbers of a job. */
#include "keyed.h"

#include <stdio.h>
#include <string.h>

#include "explain.h"
#include "number.h"

int is_digits(const char *word) {
    return word[0] != '\0' && word[strspn(word, "0123456789")] == '\0';
}

static int number_of(const char *word, const Field *field, int place, const char *whose, uint32_t *number) {
    NumberKind kind = read_number(word, strlen(word), number);
    if (kind == NUMBER_READ)
        return 1;
    Text why = {{0}, 0};
    explain_number(&why, kind, word, strlen(word), field);
    fprintf(stderr, "rembilung: %snumber %d, %s: %s\n", whose, place, field->name, why.bytes);
    return 0;
}

int read_words(char **words, const Kind *kind, const char *whose, uint32_t *numbers) {
    int read = 1;
    for (int k = 0; read && k < kind->count; k++)
        read = number_of(words[k], &kind->fields[k], k + 1, whose, &numbers[k]);
    return read;
}
