/* The command that finds the first row with a failed check, of a season's book or of a depot's table. */
#include <stdio.h>

#include "book.h"
#include "commands.h"
#include "fields.h"
#include "files.h"
#include "found.h"
#include "packing.h"
#include "refuse.h"
#include "rembilung.h"
#include "sheet.h"
#include "status.h"

/* What the command line asks for; a null path is one that was not named. */
typedef struct {
    const char *sheet_path;
    const char *table_path;
    int help;
} Asked;

/* A book, and the table that it was made of, or null. */
typedef struct {
    uint8_t book[BOOK_ROOM];
    size_t length;
    const Packing *table;
} Season;

static int judge(const Sheet *sheet, const Season *season) {
    uint32_t answer[REMBILUNG_FIRST_FAILING_NUMBERS] = {0};
    Found found;
    uint64_t done = rembilung_first_failing(sheet->bytes, sheet->length, season->book, season->length, answer);
    if (rembilung_refused(done))
        return refuse_book(done, season->book, season->length, "is named after --table");
    if (done != REMBILUNG_FIRST_FAILING_NUMBERS || !look_up(&found, answer, sheet, season->book, season->length))
        return unknown_answer();
    print_found(stdout, &found);
    if (!flush_stdout())
        return UNUSABLE;
    say_found(stderr, &found, season->table);
    return JUDGED;
}

static int judge_book(const Sheet *sheet, const char *path) {
    static Season season;
    int more;
    return read_front(path, season.book, sizeof season.book, &season.length, &more) ? judge(sheet, &season) : UNUSABLE;
}

/* The table is made a book in memory, so that the library sees the rows of either alike. */
static int judge_packed(const Sheet *sheet, const char *path) {
    static Packing packing = {.rows = {.columns = {.named = 1}}, .undone = "no row was judged",
                              .if_book = "a book, which is named without --table"};
    static Season season = {.table = &packing};
    if (!read_packing(&packing, path))
        return UNUSABLE;
    int status = make_book(&packing, season.book, &season.length);
    if (status == JUDGED)
        status = judge(sheet, &season);
    if (status == JUDGED)
        say_passed_over(&packing.rows);
    return status;
}

/* The sheet goes first, as in the library. */
static int answer(const Asked *asked, char **paths) {
    static Sheet sheet;
    if (!sheet_for_depot(&sheet, asked->sheet_path))
        return UNUSABLE;
    uint64_t checked = check_sheet(sheet.bytes, sheet.length);
    if (rembilung_refused(checked))
        return refuse(checked, &scaffold, NULL);
    return asked->table_path != NULL ? judge_packed(&sheet, asked->table_path) : judge_book(&sheet, paths[0]);
}

int first_failing_row(Words words) {
    Asked asked = {NULL, NULL, 0};
    const Option options[] = {
        {"--sheet", &asked.sheet_path, NULL}, {"--table", &asked.table_path, NULL}, {"--help", NULL, &asked.help}};
    if (!take_options(&words, options, sizeof options / sizeof options[0]))
        return UNUSABLE;
    if (asked.help)
        return show_usage();
    if (!count_is(&words, asked.table_path == NULL ? 1 : 0, "first-failing", "a book, or --table and a table,"))
        return UNUSABLE;
    return answer(&asked, words.words);
}
