/* The words of a command line: the options at their front, then the rest. */
#include "options.h"

#include <stdio.h>
#include <string.h>

#include "commands.h"
#include "status.h"

int misused(const char *what, const char *word) {
    fprintf(stderr, "rembilung: %s '%s'; --help shows what may be given\n", what, word);
    return 0;
}

static char *next_word(Words *words) {
    words->count--;
    return *words->words++;
}

static const Option *option_of(const char *word, const Option *options, size_t number) {
    size_t k = 0;
    while (k < number && strcmp(options[k].name, word) != 0)
        k++;
    return k < number ? &options[k] : NULL;
}

/* Takes the option at the front, with its path. */
static int take_option(Words *words, const Option *options, size_t number) {
    const char *word = next_word(words);
    const Option *option = option_of(word, options, number);
    if (option == NULL)
        return misused("there is no option", word);
    if (option->flag != NULL) {
        *option->flag = 1;
        return 1;
    }
    if (*option->path != NULL)
        return misused("given twice:", word);
    if (words->count == 0)
        return misused("a file has to be named after", word);
    *option->path = next_word(words);
    return 1;
}

int take_options(Words *words, const Option *options, size_t number) {
    int taken = 1;
    while (taken && words->count > 0 && strncmp(words->words[0], "--", 2) == 0)
        taken = take_option(words, options, number);
    return taken;
}

int count_is(const Words *words, int number, const char *command, const char *wanted) {
    if (words->count == number)
        return 1;
    if (words->count > number)
        return misused("there is a word too many (options stand before the files):", words->words[number]);
    fprintf(stderr, "rembilung: %s has to be named after '%s'; --help shows what may be given\n", wanted, command);
    return 0;
}

int run_on_files(Words words, int number, const char *command, const char *wanted, int (*run)(char **paths)) {
    int help = 0;
    const Option options[] = {{"--help", NULL, &help}};
    if (!take_options(&words, options, 1) || (!help && !count_is(&words, number, command, wanted)))
        return UNUSABLE;
    return help ? show_usage() : run(words.words);
}
