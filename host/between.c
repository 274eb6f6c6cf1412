/* The command for a scaffold of which numbers are known only between two reports: a mild and a harsh job, from their job files
 * or their numbers, and what holds of every job between them. */
#include <stdio.h>
#include <string.h>

#include "commands.h"
#include "explain.h"
#include "fields.h"
#include "files.h"
#include "keyed.h"
#include "order.h"
#include "outcomes.h"
#include "refuse.h"
#include "rembilung.h"
#include "sheet.h"
#include "status.h"

enum { ENDS = 2, BOTH_NUMBERS = ENDS * REMBILUNG_NUMBERS };

/* A job at one end. Its file is read only where a path was named. */
typedef struct {
    const char *name;
    uint32_t before; /* how much higher the places of its fields are */
    const char *path;
    uint8_t *file;
    size_t length;
    uint32_t numbers[REMBILUNG_NUMBERS];
} End;

static uint8_t files[ENDS][FILE_ROOM];
static End ends[ENDS] = {{.name = "mild job", .file = files[0]},
                         {.name = "harsh job", .before = REMBILUNG_NUMBERS, .file = files[1]}};

/* Says which word is missing or too many; a first word of digits alone begins 50 numbers. */
static void say_count(const Words *given) {
    int count = given->count, numbers = count > 0 && is_digits(given->words[0]), wanted = numbers ? BOTH_NUMBERS : ENDS;
    fprintf(stderr, "rembilung: 'between' takes two job files or %d numbers, and %d word%s given: ", BOTH_NUMBERS, count,
            count == 1 ? " is" : "s are");
    if (count > wanted)
        fprintf(stderr, "'%s' is the first too many", given->words[wanted]);
    else if (numbers)
        fprintf(stderr, "%s, number %d, %s, is missing", ends[count / REMBILUNG_NUMBERS].name, count % REMBILUNG_NUMBERS + 1,
                scaffold.fields[count % REMBILUNG_NUMBERS].name);
    else
        fprintf(stderr, "the %s is missing", ends[count].name);
    fputs("; --help shows what may be given\n", stderr);
}

static int key_in_ends(char **words) {
    return read_words(words, &scaffold, "mild job, ", ends[0].numbers) &&
           read_words(words + REMBILUNG_NUMBERS, &scaffold, "harsh job, ", ends[1].numbers);
}

static int read_end_file(End *end, const char *path) {
    end->path = path;
    return read_file(path, end->file, &end->length);
}

/* 0 where the words are no two jobs, or a file cannot be read, and that was said. */
static int ends_of(const Words *given) {
    if (given->count == BOTH_NUMBERS)
        return key_in_ends(given->words);
    if (given->count == ENDS && !is_digits(given->words[0]))
        return read_end_file(&ends[0], given->words[0]) && read_end_file(&ends[1], given->words[1]);
    say_count(given);
    return 0;
}

/* A refusal of one end, whose fields count from 1 here; numbers is null where they are not known. */
static int refuse_end(const End *end, uint64_t result, const Kind *kind, const uint32_t *numbers) {
    uint32_t refusal = rembilung_refusal(result), place = rembilung_place(result);
    Text words = {{0}, 0};
    text_add(&words, "%s", end->name);
    if (end->path != NULL) {
        text_add(&words, ", '");
        text_add_shown(&words, end->path, strlen(end->path));
        text_add(&words, "'");
    }
    text_add(&words, ": ");
    explain(&words, result, kind, numbers);
    if (numbers != NULL)
        add_if_support(&words, numbers, "only scaffold jobs have jobs between them");
    /* The places of 6 and 7 are offsets in its file. */
    return refuse_in_words(refusal, refusal <= 5 ? place + end->before : place, &words);
}

/* A support is refused as the library would refuse its first number, whatever its others are. */
static int refuse_support(const End *end) {
    const uint32_t numbers[REMBILUNG_NUMBERS] = {end->file[0]};
    return refuse_end(end, (uint64_t)3 << 32 | 1, &scaffold, numbers);
}

/* The numbers of an end's file, and JUDGED where nothing hinders going on. */
static int read_numbers(End *end) {
    const Kind *kind = kind_of_file(end->file, end->length);
    uint64_t read = rembilung_read_job(end->file, end->length, end->numbers);
    uint32_t refusal = rembilung_refusal(read);
    if (kind == &support && (refusal == 0 || refusal == 3))
        return refuse_support(end);
    return refusal == 0 ? JUDGED : refuse_end(end, read, kind, NULL);
}

/* What the library refuses: an end, or that the two are no mild and harsh job. */
static int refuse_ends(uint64_t result) {
    uint32_t refusal = rembilung_refusal(result), place = rembilung_place(result);
    Text words = {{0}, 0};
    if (refusal >= 3 && refusal <= 5) {
        const End *end = &ends[place > REMBILUNG_NUMBERS];
        return refuse_end(end, result - end->before, &scaffold, end->numbers);
    }
    if (refusal != 12)
        return refuse(result, &scaffold, NULL);
    explain_order(&words, place, ends[0].numbers, ends[1].numbers);
    return refuse_in_words(refusal, place, &words);
}

static int judge_between(const Sheet *sheet) {
    uint32_t answer[REMBILUNG_BETWEEN_NUMBERS] = {0};
    uint64_t told = rembilung_between(sheet->bytes, sheet->length, ends[0].numbers, ends[1].numbers, answer);
    if (rembilung_refused(told))
        return refuse_ends(told);
    if (told != REMBILUNG_BETWEEN_NUMBERS || !are_outcomes(answer))
        return unknown_answer();
    print_outcomes(stdout, answer);
    if (!flush_stdout())
        return UNUSABLE;
    say_conclusion(stderr, answer, ends[0].numbers, ends[1].numbers);
    return JUDGED;
}

/* In the library's order: the sheet, the mild job, the harsh job, and the two together. */
static int judge_ends(const Sheet *sheet) {
    uint64_t checked = check_sheet(sheet->bytes, sheet->length);
    if (rembilung_refused(checked))
        return refuse(checked, &scaffold, NULL);
    int status = JUDGED;
    for (int k = 0; status == JUDGED && k < ENDS; k++)
        if (ends[k].path != NULL)
            status = read_numbers(&ends[k]);
    return status == JUDGED ? judge_between(sheet) : status;
}

int between(Words words) {
    static Sheet sheet;
    const char *sheet_path = NULL;
    int help = 0;
    const Option options[] = {{"--sheet", &sheet_path, NULL}, {"--help", NULL, &help}};
    if (!take_options(&words, options, sizeof options / sizeof options[0]))
        return UNUSABLE;
    if (help)
        return show_usage();
    if (!ends_of(&words) || (sheet_path != NULL && !read_sheet(&sheet, sheet_path)))
        return UNUSABLE;
    if (sheet_path == NULL)
        example_sheet(&sheet);
    return judge_ends(&sheet);
}
