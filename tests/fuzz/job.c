/* Fuzzes what shows a job file and reads a report, of either kind of job: a file that is read writes back, a report that is
 * read prints back, and every report of the library is read. */
#include "explain.h"
#include "fuzz.h"
#include "jobs.h"
#include "rembilung.h"
#include "report.h"
#include "sheet.h"

static void file(const uint8_t *data, size_t size) {
    uint32_t numbers[REMBILUNG_NUMBERS];
    uint8_t again[REMBILUNG_FILE_MOST];
    Text words = {{0}, 0};
    const Kind *kind = kind_of_file(data, size);
    uint64_t read = rembilung_read_job(data, size, numbers);
    if (rembilung_refused(read)) {
        explain(&words, read, kind, NULL);
        MUST(words.length > 20 && words.length < TEXT_ROOM - 1);
        return;
    }
    MUST(read == (uint64_t)kind->count && kind == kind_of(numbers[0]));
    MUST(kind->write(numbers, again, sizeof again) == size && memcmp(again, data, size) == 0);
}

static size_t print_heights(const Report *report, char *to, size_t room) {
    if (!report->stands)
        return (size_t)snprintf(to, room, "height none\n");
    return (size_t)snprintf(to, room, "height %lu %lu\n", (unsigned long)report->stability, (unsigned long)report->permitted);
}

static size_t print_report(const Report *report, const Kind *kind, char *to, size_t room) {
    size_t at = 0;
    for (int k = 0; k < CHECKS; k++)
        at += (size_t)snprintf(to + at, room - at, "%d %lu %lu\n", k + 1, (unsigned long)report->verdicts[k],
                               (unsigned long)report->figures[k]);
    if (kind->has_heights)
        at += print_heights(report, to + at, room - at);
    at += (size_t)snprintf(to + at, room - at, "wind %lu %lu\ncolumn %lu\n", (unsigned long)report->wind,
                           (unsigned long)report->moment, (unsigned long)report->slenderness_tenths);
    return at;
}

/* A report that is read prints back as the same bytes, so nothing else was taken for one. */
static int report_and_back(const uint8_t *data, size_t size, const Kind *kind) {
    Report report;
    char again[1024];
    if (!read_report(data, size, kind, &report))
        return 0;
    MUST(print_report(&report, kind, again, sizeof again) == size && memcmp(again, data, size) == 0);
    return 1;
}

static const Ranges any_support = {&support,
                                   {3, 1, 60, 0, 60, 0, 0, 0, 100, 0, 1, 10, 100},
                                   {3, 2, 200, 100, 200, 60000, 60000, 2000, 4000, 2000, 5, 2000, 10000}};

static void judged(const uint8_t *data, size_t size, const Ranges *ranges) {
    static Sheet sheet;
    uint32_t numbers[REMBILUNG_NUMBERS];
    uint8_t bytes[REMBILUNG_FILE_MOST], report[REMBILUNG_REPORT_MOST];
    numbers_of(data, size, ranges, numbers);
    uint64_t made = ranges->kind->write(numbers, bytes, sizeof bytes);
    MUST(!rembilung_refused(made));
    (size % 2 == 0 ? test_sheet : example_sheet)(&sheet);
    uint64_t done = rembilung_verdict(sheet.bytes, sheet.length, bytes, (size_t)made, report, sizeof report);
    MUST(!rembilung_refused(done) && report_and_back(report, (size_t)done, ranges->kind));
}

int LLVMFuzzerTestOneInput(const uint8_t *data, size_t size) {
    /* The library asks for a pointer that is not null. */
    if (size == 0)
        return 0;
    file(data, size);
    report_and_back(data, size, &scaffold);
    report_and_back(data, size, &support);
    judged(data, size, &double_row);
    judged(data, size, &any_support);
    return 0;
}
