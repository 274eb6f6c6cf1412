/* The commands of the host program; each takes the words after its name and answers the exit status. */
#ifndef COMMANDS_H
#define COMMANDS_H

#include "options.h"

/* One job of either kind, from its numbers or a job file; the command that has no name. */
int judge_one(Words words);
/* A mild and a harsh scaffold job, and what holds of every job between them. */
int between(Words words);
/* A table of scaffold jobs, one row per facade. */
int depot(Words words);
/* A season's book from such a table, and back; their names have two words, book pack and book show. */
int pack_book(Words words);
int show_book(Words words);
/* The first row of a season's book, or of such a table, that has a failed check. */
int first_failing_row(Words words);
/* The records of a load cell, and for each the greatest push among the last. */
int load_cells(Words words);
/* A column sheet from text, and back. */
int pack_sheet(Words words);
int show_sheet(Words words);
/* A job file as named numbers. */
int show_job(Words words);

/* What may be given; the answer to --help. */
int show_usage(void);

/* Whether a word is the name of a command. */
int is_command(const char *word);

#endif
