/* The command for one job: from the numbers of its kind or a job file, judged under a column sheet as a unit does it, and
 * shown. */
#include <stdio.h>
#include <string.h>

#include "commands.h"
#include "fields.h"
#include "files.h"
#include "keyed.h"
#include "number.h"
#include "refuse.h"
#include "rembilung.h"
#include "report.h"
#include "sheet.h"
#include "status.h"

/* What the command line asks for; a null path is one that was not named. */
typedef struct {
    const char *sheet_path;
    const char *save_path;
    int help;
    Words rest;
} Asked;

/* A job on its way to the library: its kind, its file, and its numbers where they are known. */
typedef struct {
    const Kind *kind;
    uint8_t file[FILE_ROOM];
    size_t length;
    uint32_t numbers[REMBILUNG_NUMBERS];
    int numbered;
} Job;

/* The kind that the first word makes; one that is no number is taken for a scaffold's, and is named later. */
static const Kind *kind_keyed_in(const Words *given) {
    uint32_t first = 0;
    read_number(given->words[0], strlen(given->words[0]), &first);
    return kind_of(first);
}

/* Says which number is missing or too many, and whose count was given where it is the other kind's. */
static void say_count(const Words *given, const Kind *kind) {
    const Kind *other = kind == &support ? &scaffold : &support;
    fprintf(stderr, "rembilung: a %s has %d numbers, and %d %s given: ", kind->name, kind->count, given->count,
            given->count == 1 ? "is" : "are");
    if (given->count > kind->count)
        fprintf(stderr, "'%s' is the first too many", given->words[kind->count]);
    else
        fprintf(stderr, "number %d, %s, is missing; it may be %s", given->count + 1, kind->fields[given->count].name,
                kind->fields[given->count].range);
    if (given->count == other->count)
        fprintf(stderr, "; a %s has %d, and its first is %s", other->name, other->count, other->first);
    fputs("\n", stderr);
}

static int numbers_of(const Words *given, const Kind *kind, uint32_t *numbers) {
    if (given->count != kind->count) {
        say_count(given, kind);
        return 0;
    }
    return read_words(given->words, kind, "", numbers);
}

/* The numbers of a job that was not given as a file: those of the command line, or J's. */
static int key_in(const Words *given, Job *job) {
    job->numbered = 1;
    job->kind = given->count > 0 ? kind_keyed_in(given) : &scaffold;
    if (given->count > 0)
        return numbers_of(given, job->kind, job->numbers);
    memcpy(job->numbers, job_j, sizeof job_j);
    return 1;
}

static int refuse_job(uint64_t result, const Job *job) {
    return refuse(result, job->kind, job->numbered ? job->numbers : NULL);
}

static int judge(const Job *job, const Sheet *sheet) {
    uint8_t bytes[REMBILUNG_REPORT_MOST];
    Report report;
    uint64_t result = rembilung_verdict(sheet->bytes, sheet->length, job->file, job->length, bytes, sizeof bytes);
    if (rembilung_refused(result))
        return refuse_job(result, job);
    /* What is shown is a report on this kind of job, or nothing. */
    if (!read_report(bytes, (size_t)result, job->kind, &report)) {
        fputs("rembilung: the library's report is not one that this program knows\n", stderr);
        return UNUSABLE;
    }
    fwrite(bytes, 1, (size_t)result, stdout);
    return flush_stdout() ? JUDGED : UNUSABLE;
}

/* The sheet is named, or else T for J alone and C for every other job. */
static int judge_under(const Asked *asked, const Job *job) {
    static Sheet sheet;
    if (asked->sheet_path != NULL && !read_sheet(&sheet, asked->sheet_path))
        return UNUSABLE;
    if (asked->sheet_path == NULL)
        (asked->rest.count == 0 ? test_sheet : example_sheet)(&sheet);
    return judge(job, &sheet);
}

/* Makes the job file of numbers that were keyed in, and says JUDGED where nothing hinders judging it. */
static int make_file(Job *job) {
    uint64_t made = job->kind->write(job->numbers, job->file, sizeof job->file);
    if (rembilung_refused(made))
        return refuse_job(made, job);
    job->length = (size_t)made;
    return JUDGED;
}

/* A word that is no number names a job file. */
static int job_of(const Words *given, Job *job) {
    if (given->count != 1 || is_digits(given->words[0]))
        return key_in(given, job) ? make_file(job) : UNUSABLE;
    if (!read_file(given->words[0], job->file, &job->length))
        return UNUSABLE;
    job->kind = kind_of_file(job->file, job->length);
    return JUDGED;
}

static int answer(const Asked *asked) {
    static Job job;
    int status = job_of(&asked->rest, &job);
    if (status == JUDGED)
        status = judge_under(asked, &job);
    /* Saved last, so that a file once saved holds a job that was judged. */
    if (status == JUDGED && asked->save_path != NULL && !save_file(asked->save_path, job.file, job.length))
        return UNUSABLE;
    return status;
}

int judge_one(Words words) {
    Asked asked = {NULL, NULL, 0, words};
    const Option options[] = {
        {"--sheet", &asked.sheet_path, NULL}, {"--save", &asked.save_path, NULL}, {"--help", NULL, &asked.help}};
    if (!take_options(&asked.rest, options, sizeof options / sizeof options[0]))
        return UNUSABLE;
    if (asked.help)
        return show_usage();
    if (asked.rest.count > 0 && is_command(asked.rest.words[0])) {
        misused("a command stands before its options:", asked.rest.words[0]);
        return UNUSABLE;
    }
    return answer(&asked);
}
