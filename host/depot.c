/* The command that judges a depot's table of jobs: one row per facade, exported from a spreadsheet as CSV. */
#define _POSIX_C_SOURCE 200112L

#include <signal.h>
#include <stdio.h>
#include <string.h>

#include "commands.h"
#include "explain.h"
#include "files.h"
#include "rembilung.h"
#include "sheet.h"
#include "status.h"
#include "table.h"

/* What the command line asks for; a null path is one that was not named. */
typedef struct {
    const char *sheet_path;
    const char *out_path;
    const char *table_path;
    int template;
    int help;
} Asked;

static volatile sig_atomic_t stopped;

static void stop(int signal_number) {
    (void)signal_number;
    stopped = 1;
}

/* Without SA_RESTART, so that a read which waits for more ends too. */
static void heed_signals(void) {
    struct sigaction action;
    memset(&action, 0, sizeof action);
    action.sa_handler = stop;
    sigemptyset(&action.sa_mask);
    sigaction(SIGINT, &action, NULL);
    sigaction(SIGTERM, &action, NULL);
}

/* A damaged sheet is refused before any row; the library says whether it is. */
static int prepare_sheet(const char *path, Sheet *sheet) {
    if (!sheet_for_depot(sheet, path))
        return 0;
    uint64_t checked = check_sheet(sheet->bytes, sheet->length);
    if (!rembilung_refused(checked))
        return 1;
    explain_line(stderr, checked, &scaffold, NULL);
    return 0;
}

/* What can be said once the table was read as far as it goes; the answer is the exit status. */
static int conclude(const Table *table, const Input *input, int status) {
    if (stopped) {
        fputs("rembilung: stopped before the end of the table\n", stderr);
        return UNUSABLE;
    }
    if (input->why != 0) {
        cannot("read", input->path, input->why);
        return UNUSABLE;
    }
    if (status == UNUSABLE)
        return UNUSABLE;
    if (table->rows.count == 0) {
        fputs("rembilung: the table has no row to judge\n", stderr);
        return UNUSABLE;
    }
    say_number_of_rows(&table->rows);
    print_tally(stderr, &table->tally);
    say_passed_over(&table->rows);
    return status;
}

static int judge_input(Input *input, const Sheet *sheet, FILE *out) {
    static Csv csv;
    Source source = {more_of_input, input};
    Table table = {.rows = {.csv = &csv, .said = stderr, .columns = {.named = 1}}, .sheet = sheet->bytes,
                   .sheet_length = sheet->length, .out = out, .stop = &stopped};
    rows_open(&table.rows, source);
    return conclude(&table, input, judge_table(&table));
}

static int judge_file(const Asked *asked) {
    static Sheet sheet;
    Input input;
    Output output;
    if (!prepare_sheet(asked->sheet_path, &sheet) || !open_input(&input, asked->table_path, &stopped))
        return UNUSABLE;
    int status = UNUSABLE;
    if (open_output(&output, asked->out_path)) {
        heed_signals();
        status = judge_input(&input, &sheet, output.to);
        if (!close_output(&output, status != UNUSABLE))
            status = UNUSABLE;
    }
    fclose(input.from);
    return status;
}

static int show_template(void) {
    print_template(stdout);
    return flush_stdout() ? JUDGED : UNUSABLE;
}

int depot(Words words) {
    Asked asked = {NULL, NULL, NULL, 0, 0};
    const Option options[] = {{"--sheet", &asked.sheet_path, NULL},
                              {"--out", &asked.out_path, NULL},
                              {"--template", NULL, &asked.template},
                              {"--help", NULL, &asked.help}};
    if (!take_options(&words, options, sizeof options / sizeof options[0]))
        return UNUSABLE;
    if (asked.help)
        return show_usage();
    if (asked.template && (asked.sheet_path != NULL || asked.out_path != NULL || words.count > 0)) {
        misused("nothing else is given with", "--template");
        return UNUSABLE;
    }
    if (asked.template)
        return show_template();
    if (!count_is(&words, 1, "depot", "a table"))
        return UNUSABLE;
    asked.table_path = words.words[0];
    return judge_file(&asked);
}
