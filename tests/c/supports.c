/* What only supports have: the first number that tells the kinds apart, their greatest lengths, and buffers of every length. */
#include <string.h>

#include "check.h"
#include "paper.h"
#include "parts.h"

/* Worked out by hand: every figure at its most digits, so the report has the greatest length that the header gives. */
static const uint32_t longest[REMBILUNG_SUPPORT_NUMBERS] = {3, 1, 200, 100, 200, 60000, 60000, 2000, 4000, 2000, 5, 2000, 10000};
static const char longest_report[] =
    "1 0 0\n2 0 0\n3 0 0\n4 0 0\n5 0 0\n6 0 0\n7 2 156000\n8 2 143400\n9 0 0\n10 2 156000\n11 1 156000\n12 0 0\n"
    "wind 11200 10662400\ncolumn 2540\n";

/* No number of these is 3, though the low bits of most are those of 3. */
static const uint32_t other_firsts[] = {0, 4, 127, 128, 131, 259, 16387, 65539, 2097155, 2147483651u, UINT32_MAX};

/* Reading, and the whole call under a good sheet, answer alike. */
static void file_refused(const File *file, Answer due) {
    Sheet t = sheet_t();
    expect_verdict(sheet_bytes(&t), file_bytes(file), REMBILUNG_REPORT_MOST, due);
    expect_read(file_bytes(file), due);
}

/* The job's numbers with another first one, written as its own kind and read as the first number says. */
static void with_first(Judged job, uint32_t first) {
    uint32_t numbers[REMBILUNG_NUMBERS];
    memcpy(numbers, job.numbers, job.kind->count * sizeof *numbers);
    numbers[0] = first;
    File file = file_of(job.kind, numbers);
    case_begins("%zu numbers, the first %u", job.kind->count, (unsigned)first);
    expect_write(job.kind, numbers, job.kind->file_most, refused(3, 1));
    file_refused(&file, file_answer(&file, first, refused(3, 1)));
}

static void first_numbers(void) {
    for (size_t k = 0; k < sizeof other_firsts / sizeof *other_firsts; k++) {
        with_first(judged_j(), other_firsts[k]);
        with_first(judged_support(), other_firsts[k]);
    }
    with_first(judged_j(), 3);
    with_first(judged_support(), 1);
    with_first(judged_support(), 2);
}

/* Thirteen numbers in range, then bytes that a scaffold's file would go on with: the first of them is named. */
static void goes_on_as_scaffold(void) {
    uint32_t numbers[REMBILUNG_NUMBERS];
    memcpy(numbers, job_j, sizeof numbers);
    memcpy(numbers, one_support, sizeof one_support);
    File file = file_of(&scaffold, numbers);
    case_begins("a support's 13 numbers, and J's others behind them");
    file_refused(&file, refused(7, (uint32_t)file.offset[support.count]));
}

static void every_length(Judged job) {
    Sheet t = sheet_t();
    File file = file_of(job.kind, job.numbers);
    Answer report = gives((uint32_t)job.report.length, job.report);
    Answer written = gives((uint32_t)file_bytes(&file).length, file_bytes(&file));
    for (size_t length = 0; length <= REMBILUNG_REPORT_MOST + BEYOND; length++) {
        case_begins("%s: verdict, report buffer of %zu", job.name, length);
        expect_verdict(sheet_bytes(&t), file_bytes(&file), length, due_in(report, length));
    }
    for (size_t length = 0; length <= REMBILUNG_FILE_MOST + BEYOND; length++) {
        case_begins("%s: write_support, file buffer of %zu", job.name, length);
        expect_write(job.kind, job.numbers, length, due_in(written, length));
    }
    case_begins("%s: read_job", job.name);
    expect_read(file_bytes(&file), gives((uint32_t)support.count, (Bytes){job.numbers, support.count * sizeof *job.numbers}));
}

static void greatest_lengths(void) {
    Judged job = {"the longest support", &support, longest, {longest_report, sizeof longest_report - 1}};
    File file = file_of(&support, longest);
    every_length(job);
    case_begins("the greatest lengths that the header gives");
    if (file_bytes(&file).length != REMBILUNG_SUPPORT_FILE_MOST || job.report.length != REMBILUNG_SUPPORT_REPORT_MOST)
        differs("the longest support has %zu and %zu bytes", file_bytes(&file).length, job.report.length);
}

void test_supports(void) {
    first_numbers();
    goes_on_as_scaffold();
    every_length(judged_support());
    greatest_lengths();
}
