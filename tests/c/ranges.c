/* Refusals 3, 4 and 5: every field at and beside the ends of its range, contradictions, and walls unfit for a single row. */
#include <string.h>

#include "check.h"
#include "ends.h"
#include "paper.h"
#include "parts.h"

/* A field's range in a family and an enclosure, as document 01 has it, or in a support, whose first number is 3. */
typedef struct {
    uint32_t family, enclosure;
    int field;
    uint32_t low, high;
} Range;

static const Range ranges[] = {
    {1, 1, 1, 1, 2},       {1, 1, 2, 1, 2},         {2, 1, 3, 60, 150},    {1, 1, 4, 60, 200},     {1, 1, 5, 60, 200},
    {1, 1, 6, 2, 3},       {1, 1, 7, 1, 5000},      {2, 1, 7, 1, 2400},    {1, 1, 8, 1, 3},        {1, 1, 9, 1, 10},
    {1, 1, 10, 1, 9},      {1, 1, 11, 0, 10000},    {1, 1, 12, 0, 30000},  {1, 1, 13, 0, 5000},    {1, 1, 14, 50, 500},
    {1, 1, 15, 0, 2000},   {1, 1, 16, 100, 4000},   {1, 1, 17, 1, 3},      {1, 1, 18, 1, 2000},    {1, 2, 18, 1, 700},
    {1, 3, 18, 1, 1000},   {1, 1, 19, 1, 2},        {1, 1, 20, 0, 2000},   {1, 1, 21, 1, 3},       {1, 1, 22, 8000, 100000},
    {1, 1, 23, 1, 5},      {1, 1, 24, 10, 2000},    {1, 1, 25, 100, 10000}, {2, 1, 4, 60, 200},    {2, 3, 18, 1, 1000}, {2, 2, 18, 1, 700},
    {1, 1, 3, 105, 105},   {1, 1, 3, 130, 130},     {1, 1, 3, 155, 155},
    {3, 0, 1, 3, 3},       {3, 0, 2, 1, 2},         {3, 0, 3, 60, 200},    {3, 0, 4, 0, 100},      {3, 0, 5, 60, 200},
    {3, 0, 6, 0, 60000},   {3, 0, 7, 0, 60000},     {3, 0, 8, 0, 2000},    {3, 0, 9, 100, 4000},   {3, 0, 10, 0, 2000},
    {3, 0, 11, 1, 5},      {3, 0, 12, 10, 2000},    {3, 0, 13, 100, 10000},
};

typedef struct {
    const Kind *kind;
    uint32_t numbers[REMBILUNG_NUMBERS];
} Job;

/* A job that stays accepted when any one field goes to an end of its range. */
static Job plain(uint32_t family, uint32_t enclosure) {
    if (family == 3)
        return (Job){&support, {3, 1, 100, 50, 100, 1000, 1000, 200, 1000, 500, 1, 100, 1000}};
    return (Job){&scaffold, {family, 1, 105, 100, 100, 2, 2000, 1, 10, 1, 0, 30000, 0,
                             100, 200, 1000, enclosure, 500, 1, 240, 1, 8000, 1, 100, 1000}};
}

static Job with(Job job, int field, uint32_t value) {
    job.numbers[field - 1] = value;
    return job;
}

/* J and the scaffold job as the two rows of a book: refused for its second row, or written and read. */
static void in_book(const Job *job, int accepted) {
    static Book book;
    uint32_t rows[2 * REMBILUNG_NUMBERS];
    memcpy(rows, job_j, sizeof job_j);
    memcpy(rows + REMBILUNG_NUMBERS, job->numbers, sizeof job->numbers);
    make_book(&book, rows, 2);
    Bytes bytes = book_bytes(&book), lent = row_bytes(rows, 2);
    expect_write_book(lent, REMBILUNG_NUMBERS_OF(2), bytes.length,
                      accepted ? gives((uint32_t)bytes.length, bytes) : refused(11, 1));
    expect_read_book(bytes, REMBILUNG_NUMBERS_OF(2), accepted ? gives(2, lent) : refused(11, 1));
}

/* The job as the mild end and as the harsh, beside one that stands, and at both. */
static void ends_refused(const Job *job, uint32_t refusal, uint32_t place) {
    Sheet t = sheet_t();
    expect_between(sheet_bytes(&t), job->numbers, job_j, refused(refusal, place));
    expect_between(sheet_bytes(&t), job_j, job->numbers, refused(refusal, REMBILUNG_NUMBERS + place));
    expect_between(sheet_bytes(&t), job->numbers, job->numbers, refused(refusal, place));
}

static void job_refused(Job job, uint32_t refusal, uint32_t place) {
    Sheet t = sheet_t();
    File file = file_of(job.kind, job.numbers);
    /* The first number also says as what a file is read. */
    Answer due = file_answer(&file, job.numbers[0], refused(refusal, place));
    expect_write(job.kind, job.numbers, job.kind->file_most, refused(refusal, place));
    expect_read(file_bytes(&file), due);
    expect_verdict(sheet_bytes(&t), file_bytes(&file), REMBILUNG_REPORT_MOST, due);
    if (job.kind != &scaffold)
        return;
    in_book(&job, 0);
    ends_refused(&job, refusal, place);
}

static void job_accepted(Job job) {
    uint8_t report[REMBILUNG_REPORT_MOST];
    Sheet t = sheet_t();
    File file = file_of(job.kind, job.numbers);
    Bytes bytes = file_bytes(&file), numbers = {job.numbers, job.kind->count * sizeof *job.numbers};
    expect_write(job.kind, job.numbers, bytes.length, gives((uint32_t)bytes.length, bytes));
    expect_read(bytes, gives((uint32_t)job.kind->count, numbers));
    expect_judged(sheet_bytes(&t), bytes, report);
    if (job.kind != &scaffold)
        return;
    in_book(&job, 1);
    expect_between(sheet_bytes(&t), job.numbers, job.numbers, outcomes_of_reports(sheet_bytes(&t), job.numbers, job.numbers));
}

static void outside(const Range *range, uint32_t value) {
    case_begins("family %u, enclosure %u, field %d at %u, outside", (unsigned)range->family, (unsigned)range->enclosure,
                range->field, (unsigned)value);
    job_refused(with(plain(range->family, range->enclosure), range->field, value), 3, (uint32_t)range->field);
}

static void inside(const Range *range, uint32_t value) {
    case_begins("family %u, enclosure %u, field %d at %u, inside", (unsigned)range->family, (unsigned)range->enclosure,
                range->field, (unsigned)value);
    job_accepted(with(plain(range->family, range->enclosure), range->field, value));
}

static void ends_of(const Range *range) {
    if (range->low > 0)
        outside(range, range->low - 1);
    if (range->low > 1)
        outside(range, 0);
    inside(range, range->low);
    inside(range, range->high);
    outside(range, range->high + 1);
    outside(range, range->high + 65536);
    outside(range, UINT32_MAX);
}

/* Half closed, below the 30 % with which table 4.2.4 begins, and from there on. */
static void half_closed(void) {
    static const uint32_t shields[] = {2, 127, 128, 298, 299, 300, 301, 699};
    for (uint32_t family = 1; family <= 2; family++)
        for (size_t k = 0; k < sizeof shields / sizeof *shields; k++) {
            case_begins("family %u, half closed, shield %u", (unsigned)family, (unsigned)shields[k]);
            job_accepted(with(plain(family, 2), 18, shields[k]));
        }
}

/* Two fields are outside: the lower is named, and the family and the enclosure before what hangs on them. */
static void lowest_named(Job job, int lower, int higher) {
    case_begins("of %zu numbers fields %d and %d both at 4294967295", job.kind->count, lower, higher);
    job_refused(with(with(job, lower, UINT32_MAX), higher, UINT32_MAX), 3, (uint32_t)lower);
}

static void lowest_of_neighbours(Job job) {
    for (int field = 1; field < (int)job.kind->count; field++)
        lowest_named(job, field, field + 1);
}

static void contradictions(void) {
    Job layers = with(with(plain(1, 1), 9, 3), 10, 4), loads = with(with(plain(1, 1), 11, 3000), 12, 2999);
    case_begins("4 working layers on 3 boarded");
    job_refused(layers, 4, 10);
    case_begins("4 working layers on 4 boarded");
    job_accepted(with(layers, 9, 4));
    case_begins("2999 summed over layers, 3000 on one");
    job_refused(loads, 4, 12);
    case_begins("3000 summed over layers, 3000 on one");
    job_accepted(with(loads, 12, 3000));
    case_begins("4 working layers on 3 boarded, and 0 summed over layers, 3000 on one");
    job_refused(with(with(layers, 11, 3000), 12, 0), 4, 10);
    case_begins("a single row, 4 working layers on 3 boarded, wall of 180 mm");
    job_refused(with(with(layers, 1, 2), 20, 180), 4, 10);
}

static void walls(void) {
    case_begins("a single row, wall of 180 mm");
    job_refused(with(plain(2, 1), 20, 180), 5, 20);
    case_begins("a single row, wall of 0 mm");
    job_refused(with(plain(2, 1), 20, 0), 5, 20);
    case_begins("a single row, wall of 181 mm");
    job_accepted(with(plain(2, 1), 20, 181));
    case_begins("a single row, hollow wall");
    job_refused(with(plain(2, 1), 21, 2), 5, 21);
    case_begins("a single row, wall of weak mortar");
    job_refused(with(plain(2, 1), 21, 3), 5, 21);
    case_begins("a single row, hollow wall of 180 mm");
    job_refused(with(with(plain(2, 1), 20, 180), 21, 2), 5, 20);
    case_begins("a double row, hollow wall of 0 mm");
    job_accepted(with(with(plain(1, 1), 20, 0), 21, 2));
}

/* Every number at its longest, so the file has the greatest length that the header gives. */
static void longest_file(Job longest) {
    File file = file_of(longest.kind, longest.numbers);
    case_begins("the job of %zu numbers with the longest file", longest.kind->count);
    job_accepted(longest);
    if (file_bytes(&file).length != longest.kind->file_most)
        differs("its file has %zu bytes, and the header's greatest is %zu", file_bytes(&file).length, longest.kind->file_most);
}

static void longest_files(void) {
    Job longest = {&scaffold, {0}};
    memcpy(longest.numbers, longest_job, sizeof longest_job);
    longest_file(longest);
    longest_file((Job){&support, {3, 2, 200, 100, 200, 60000, 60000, 2000, 4000, 2000, 5, 2000, 10000}});
}

void test_ranges(void) {
    for (size_t k = 0; k < sizeof ranges / sizeof *ranges; k++)
        ends_of(&ranges[k]);
    half_closed();
    lowest_of_neighbours(plain(1, 1));
    lowest_of_neighbours(plain(3, 0));
    contradictions();
    walls();
    longest_files();
}
