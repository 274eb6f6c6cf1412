/* Which refusal goes first: every set of faults that can meet in one call. */
#include <string.h>

#include "check.h"
#include "paper.h"
#include "parts.h"

/* The faults of a whole call, a bit each, in the order in which they are tried. */
enum { LENGTH = 1, ENTRY = 2, DAMAGED = 4, EXTRA = 8, RANGE = 16, LAYERS = 32, WALL = 64, SHORT = 128, FAULTS = 256 };

/* The single row's report under sheet T, as an implementation from the papers gives it. */
static const char single_report[] =
    "1 1 1051571\n2 1 3413\n3 2 1481264\n4 1 9650\n5 2 8932\n6 1 159\n7 2 46301\n8 2 40177\n9 1 6675\n10 2 46301\n"
    "11 2 46301\n12 2 0\nheight none\nwind 162 78076\ncolumn 1835\n";

/* A support has neither layers nor a wall. */
enum { OF_SUPPORT = FAULTS - 1 - LAYERS - WALL };

typedef struct {
    uint8_t bytes[FILE_ROOM];
    size_t length;
    size_t last;
} Faulty;

/* The last number of either kind is the pad, which is never 0. */
static void faulty_numbers(const Judged *job, int faults, uint32_t *numbers) {
    memcpy(numbers, job->numbers, job->kind->count * sizeof *numbers);
    if (faults & RANGE)
        numbers[job->kind->count - 1] = 0;
    if (faults & LAYERS)
        numbers[9] = 8;
    if (faults & WALL)
        numbers[19] = 180;
}

/* Cut in its last number, or with a byte behind it; last is where that number begins. */
static Faulty faulty_file(const Judged *job, int faults) {
    uint32_t numbers[REMBILUNG_NUMBERS];
    Faulty faulty = {{0}, 0, 0};
    faulty_numbers(job, faults, numbers);
    File file = file_of(job->kind, numbers);
    memcpy(faulty.bytes, file.bytes, file_bytes(&file).length);
    faulty.last = file.offset[file.count - 1];
    faulty.length = file_bytes(&file).length + (faults & EXTRA ? 1 : 0) - (faults & DAMAGED ? 1 : 0);
    return faulty;
}

/* The first of 1, 2, 6, 7, 3, 4, 5, 8. */
static Answer first_due(const Judged *job, int faults, size_t sheet_length, const Faulty *file) {
    uint32_t length = (uint32_t)job->report.length;
    if (faults & LENGTH)
        return refused(1, (uint32_t)sheet_length);
    if (faults & ENTRY)
        return refused(2, 3);
    if (faults & DAMAGED)
        return refused(6, (uint32_t)file->last);
    if (faults & EXTRA)
        return refused(7, (uint32_t)file->length - 1);
    if (faults & RANGE)
        return refused(3, (uint32_t)job->kind->count);
    if (faults & LAYERS)
        return refused(4, 10);
    if (faults & WALL)
        return refused(5, 20);
    return faults & SHORT ? refused(8, length) : gives(length, job->report);
}

static void whole_call(const Judged *job, int faults) {
    Sheet sheet = sheet_t();
    if (faults & ENTRY)
        set_entry(&sheet, 3, 0);
    size_t sheet_length = faults & LENGTH ? REMBILUNG_SHEET_BYTES - 1 : REMBILUNG_SHEET_BYTES;
    Faulty file = faulty_file(job, faults);
    size_t room = job->report.length - (faults & SHORT ? 1 : 0);
    case_begins("verdict of %s with faults %02x (hexadecimal): sheet length %d, entry %d, file cut %d, extra byte %d, range %d, "
                "layers %d, wall %d, short report %d", job->name, faults, !!(faults & LENGTH), !!(faults & ENTRY),
                !!(faults & DAMAGED), !!(faults & EXTRA), !!(faults & RANGE), !!(faults & LAYERS), !!(faults & WALL),
                !!(faults & SHORT));
    expect_verdict((Bytes){sheet.bytes, sheet_length}, (Bytes){file.bytes, file.length}, room,
                   first_due(job, faults, sheet_length, &file));
}

/* Reading tries 6, 7, 3, 4, 5. */
static void reading(const Judged *job, int faults) {
    Faulty file = faulty_file(job, faults);
    Answer due = first_due(job, faults, 0, &file);
    if (due.refusal == 0)
        due = gives((uint32_t)job->kind->count, (Bytes){job->numbers, job->kind->count * sizeof *job->numbers});
    case_begins("read_job of %s with faults %02x (hexadecimal)", job->name, faults);
    expect_read((Bytes){file.bytes, file.length}, due);
}

/* Writing tries 3, 4, 5, 8. */
static void writing(const Judged *job, int faults) {
    uint32_t numbers[REMBILUNG_NUMBERS];
    faulty_numbers(job, faults, numbers);
    Faulty file = faulty_file(job, faults);
    Answer due = first_due(job, faults & ~SHORT, 0, &file);
    uint32_t length = (uint32_t)file.length;
    if (due.refusal == 0)
        due = faults & SHORT ? refused(8, length) : gives(length, (Bytes){file.bytes, length});
    case_begins("%s of %s with faults %02x (hexadecimal)", job->kind->call, job->name, faults);
    expect_write(job->kind, numbers, faults & SHORT ? length - 1 : length, due);
}

static void in_order(const Judged *job, int faults) {
    if ((faults & DAMAGED) && (faults & EXTRA))
        return;
    whole_call(job, faults);
    if ((faults & (LENGTH | ENTRY | SHORT)) == 0)
        reading(job, faults);
    if ((faults & (LENGTH | ENTRY | DAMAGED | EXTRA)) == 0)
        writing(job, faults);
}

void test_order(void) {
    Judged one = {"a single row", &scaffold, single_job, {single_report, sizeof single_report - 1}}, other = judged_support();
    for (int faults = 0; faults < FAULTS; faults++)
        in_order(&one, faults);
    for (int faults = 0; faults < FAULTS; faults++)
        if ((faults & ~OF_SUPPORT) == 0)
            in_order(&other, faults);
}
