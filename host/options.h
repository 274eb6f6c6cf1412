/* The words of a command line: the options at their front, then the rest. */
#ifndef OPTIONS_H
#define OPTIONS_H

#include <stddef.h>

typedef struct {
    char **words;
    int count;
} Words;

/* An option takes the word after it as a path, or is a flag; the other pointer is null. A path not named stays null. */
typedef struct {
    const char *name;
    const char **path;
    int *flag;
} Option;

/* Takes every option from the front; 0 where one cannot be taken, and that was said on standard error. */
int take_options(Words *words, const Option *options, size_t number);

/* Whether so many words are left after the options of a command; where not, says on standard error what it wants. */
int count_is(const Words *words, int number, const char *command, const char *wanted);

/* Runs what a command does with so many files, where its words are those alone; the answer is the exit status. */
int run_on_files(Words words, int number, const char *command, const char *wanted, int (*run)(char **paths));

/* Says on standard error what is wrong with a word; the answer is 0. */
int misused(const char *what, const char *word);

#endif
