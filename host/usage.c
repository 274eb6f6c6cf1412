/* What --help shows: the commands, their options, and the numbers of a job of each kind. */
#include <stdio.h>

#include "commands.h"
#include "fields.h"
#include "files.h"
#include "status.h"

/* Three parts, since no compiler has to take a string longer than 4095 bytes. */
static const char ways[] =
    "usage: run [--sheet FILE] [--save FILE] [NUMBER.. | FILE]\n"
    "       run between [--sheet FILE] MILD HARSH\n"
    "       run depot [--sheet FILE] [--out FILE] TABLE\n"
    "       run depot --template\n"
    "       run book pack TABLE FILE\n"
    "       run book show [--out FILE] BOOK\n"
    "       run first-failing [--sheet FILE] BOOK\n"
    "       run first-failing [--sheet FILE] --table TABLE\n"
    "       run cells [--csv | --picture] [--out FILE] W RECORDS\n"
    "       run pack-sheet TEXT FILE\n"
    "       run show-sheet [FILE]\n"
    "       run show FILE\n"
    "\n";

static const char meanings[] =
    "  run               job J of document 01 under its sheet T\n"
    "  run NUMBER..      a scaffold job of 25 whole numbers, or a formwork support of 13, the first 3, in the order below\n"
    "  run FILE          a job file (one that is called as a command is, such as depot, is given as ./depot)\n"
    "  --sheet FILE      a column sheet of one's own: 502 bytes, 251 entries in thousandths, low byte first\n"
    "                    (without it: the example sheet C, to be compared with the printed code)\n"
    "  --save FILE       once judged, also writes the job file; a file of that name is never written over\n"
    "\n"
    "  run between       for numbers known only between two reports, as the ground's strength: what holds of every accepted\n"
    "                    scaffold job between a mild and a harsh one, two job files, or 50 numbers, the mild job's 25 first;\n"
    "                    of the harsh job numbers 1, 2, 8, 17 and 19 are the same, 3 to 7, 9 to 16 and 18 no smaller, 22, 24\n"
    "                    and 25 no greater, the factor of soil 23 no greater (5, then 4, then 1 to 3), 20 and 21 any\n"
    "\n"
    "  run depot TABLE   a spreadsheet of scaffold jobs exported as CSV, one row per facade, '-' for standard input; the\n"
    "                    first row has the 25 names below, in any order, or there is no such row and the numbers stand in\n"
    "                    the order below; cells are separated by commas, semicolons or tabs (docs/DEPOTS.md says more)\n"
    "  --out FILE        the answers go there and not to standard output; a file of that name is never written over\n"
    "  --template        prints the row of names for a new table\n"
    "\n"
    "  run book pack     makes the book FILE from such a table of up to 200 scaffold jobs, every one of which has to stand;\n"
    "                    the table is read as depot reads it, and a file that is there is never written over\n"
    "  run book show     prints a book as such a table, its rows numbered from 0; with --out the table goes to that file\n"
    "\n"
    "  run first-failing the first row of a book, in its order, that has a failed check, and how many rows were judged; those\n"
    "                    after it are not. A file of no bytes is an empty season, in which no row fails\n"
    "  --table TABLE     the same of such a table, which is read as book pack reads it; nothing is written\n"
    "\n"
    "  run cells         for each record of a load cell, eight bytes each in the file RECORDS, at most 8000 of them, the\n"
    "                    greatest push among the last W, itself one of them, W from 1 to 500: whole newtons, a line each\n"
    "  --csv             a table instead, with record, counted from 0, kind, newtons as logged, and maximum\n"
    "  --picture         a picture instead, of at most 60 lines: of W records each, or of the least multiple of W that is\n"
    "                    enough, the greatest push and a bar, the longest for the greatest of all\n"
    "  --out FILE        it goes there and not to standard output; a file of that name is never written over\n"
    "\n"
    "  run pack-sheet    makes the column sheet FILE from a text of 251 whole numbers, thousandths, between commas,\n"
    "                    semicolons, spaces or line ends; # begins a remark\n"
    "  run show-sheet    prints a column sheet as such a text; without a file, the example sheet C\n"
    "  run show FILE     prints the numbers of a job file with their names\n"
    "\n";

static const char answers[] =
    "Standard output has the report, or the line 'refused', number, place; standard error says why in words.\n"
    "Of between it has a line a check, its number, 1 passes throughout, 2 fails throughout or 3 undecided, and the same in\n"
    "words, then 'heights', the stability height of the mild and of the harsh job; standard error says what to do.\n"
    "Of first-failing it has 'row' and the row's place from 0, or none, 'judged' and how many rows were judged, and a line\n"
    "for each check of that row that fails, its number and what it is; standard error says which row, of how many.\n"
    "Exit status: 0 judged, told, packed or shown, 1 refused, 2 bad usage or a file that cannot be read or written.\n"
    "Of depot: 0 every row judged, 1 some row refused or unreadable, 2 bad usage, or a table or sheet that cannot be used.\n"
    "Of book pack and first-failing: 2 also where a row of the table cannot be read.\n";

static void show_fields(const Kind *kind) {
    printf("\nThe %d numbers of a %s:\n", kind->count, kind->name);
    for (int k = 0; k < kind->count; k++)
        printf("%4d  %s: %s\n", k + 1, kind->fields[k].name, kind->fields[k].range);
}

int show_usage(void) {
    fputs(ways, stdout);
    fputs(meanings, stdout);
    fputs(answers, stdout);
    show_fields(&scaffold);
    show_fields(&support);
    return flush_stdout() ? JUDGED : UNUSABLE;
}
