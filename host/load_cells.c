/* The command for the records of a load cell: for each the greatest push among the last w, as numbers, a table or a picture. */
#include <inttypes.h>
#include <stdio.h>
#include <string.h>

#include "commands.h"
#include "explain.h"
#include "files.h"
#include "picture.h"
#include "records.h"
#include "refuse.h"
#include "rembilung.h"
#include "status.h"

/* What the command line asks for; a null path is one that was not named. */
typedef struct {
    const char *out_path;
    int table;
    int picture;
    int help;
} Asked;

/* Records with room for more than a run has, so that the library is shown how many there are; and w. */
typedef struct {
    uint8_t records[FILE_ROOM];
    size_t length;
    uint32_t w;
} Run;

static const Field field_w = {"w", "1 to 500"};

/* A number that is out of its range is the library's to refuse. */
static int read_w(const char *word, uint32_t *w) {
    NumberKind kind = read_number(word, strlen(word), w);
    Text why = {{0}, 0};
    if (kind == NUMBER_READ)
        return 1;
    explain_number(&why, kind, word, strlen(word), &field_w);
    fprintf(stderr, "rembilung: %s, which stands before the file: %s\n", field_w.name, why.bytes);
    return 0;
}

static int read_run(const char *path, Run *run) {
    int more = 0;
    if (!read_front(path, run->records, sizeof run->records, &run->length, &more))
        return 0;
    if (more)
        fprintf(stderr, "rembilung: '%s' has more than %d bytes, and %d records of a load cell have %d\n", path, FILE_ROOM,
                REMBILUNG_CELL_RECORDS_MOST, REMBILUNG_CELL_RECORDS_MOST * REMBILUNG_CELL_RECORD);
    return !more;
}

static int refuse_run(uint64_t result, const Run *run) {
    Text words = {{0}, 0};
    explain_records(&words, result, run->records, run->length);
    return refuse_in_words(rembilung_refusal(result), rembilung_place(result), &words);
}

/* The picture is made before anything is written. */
static int show(const Run *run, const uint8_t *pushes, const Asked *asked) {
    size_t count = run->length / REMBILUNG_CELL_RECORD;
    Picture picture;
    Output output;
    if (asked->picture && !make_picture(&picture, run->records, count, run->w))
        return unknown_answer();
    if (!open_output(&output, asked->out_path))
        return UNUSABLE;
    if (asked->picture)
        print_picture(output.to, &picture);
    else if (asked->table)
        print_records(output.to, run->records, pushes, count);
    else
        print_pushes(output.to, pushes, count);
    return close_output(&output, 1) ? JUDGED : UNUSABLE;
}

static int answer(const Run *run, const Asked *asked) {
    static uint8_t pushes[REMBILUNG_CELL_OUTPUT_MOST];
    uint64_t done = rembilung_cells(run->records, run->length, run->w, pushes, sizeof pushes);
    if (rembilung_refused(done))
        return refuse_run(done, run);
    if (done > sizeof pushes || done != PUSH_BYTES * (run->length / REMBILUNG_CELL_RECORD))
        return unknown_answer();
    return show(run, pushes, asked);
}

int load_cells(Words words) {
    static Run run;
    Asked asked = {NULL, 0, 0, 0};
    const Option options[] = {{"--csv", NULL, &asked.table},
                              {"--picture", NULL, &asked.picture},
                              {"--out", &asked.out_path, NULL},
                              {"--help", NULL, &asked.help}};
    if (!take_options(&words, options, sizeof options / sizeof options[0]))
        return UNUSABLE;
    if (asked.help)
        return show_usage();
    if (asked.table && asked.picture) {
        misused("--csv is not given with", "--picture");
        return UNUSABLE;
    }
    if (!count_is(&words, 2, "cells", "w and a file of records"))
        return UNUSABLE;
    return read_w(words.words[0], &run.w) && read_run(words.words[1], &run) ? answer(&run, &asked) : UNUSABLE;
}
