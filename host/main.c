/* The host program: finds the command that the first word names, or of a book the first two, and runs it. */
#include <string.h>

#include "commands.h"
#include "status.h"

typedef struct {
    const char *name;
    int (*run)(Words words);
} Command;

static const Command *command_of(const char *word, const Command *commands, size_t number) {
    size_t k = 0;
    while (k < number && strcmp(commands[k].name, word) != 0)
        k++;
    return k < number ? &commands[k] : NULL;
}

static int run_after_name(const Command *command, Words words) {
    Words after = {words.words + 1, words.count - 1};
    return command->run(after);
}

static int help(Words words) {
    (void)words;
    return show_usage();
}

static const Command book_commands[] = {
    {"pack", pack_book},
    {"show", show_book},
    {"--help", help},
};

static int book(Words words) {
    if (words.count == 0) {
        misused("pack or show has to be named after", "book");
        return UNUSABLE;
    }
    const Command *command = command_of(words.words[0], book_commands, sizeof book_commands / sizeof book_commands[0]);
    if (command == NULL) {
        misused("pack or show has to be named after 'book', and not", words.words[0]);
        return UNUSABLE;
    }
    return run_after_name(command, words);
}

static const Command commands[] = {
    {"between", between},
    {"depot", depot},
    {"book", book},
    {"first-failing", first_failing_row},
    {"cells", load_cells},
    {"pack-sheet", pack_sheet},
    {"show-sheet", show_sheet},
    {"show", show_job},
};

static const Command *first_command(const char *word) {
    return command_of(word, commands, sizeof commands / sizeof commands[0]);
}

int is_command(const char *word) {
    return first_command(word) != NULL;
}

int main(int count, char **words) {
    Words given = {words + 1, count > 0 ? count - 1 : 0};
    const Command *command = given.count > 0 ? first_command(given.words[0]) : NULL;
    return command == NULL ? judge_one(given) : run_after_name(command, given);
}
