/* Runs every case from C: main PATH-OF-J'S-REPORT [within-128-GiB]; the last line counts cases and failures. */
#include <stdio.h>
#include <string.h>

#include "check.h"
#include "ends.h"
#include "failing.h"
#include "paper.h"
#include "parts.h"
#include "records.h"

static uint8_t *aligned(uint8_t *room) {
    return room + (16 - (uintptr_t)room % 16) % 16;
}

/* A job with sheet, file and report that begin at this distance from a multiple of 16. */
static void at_address(Judged job, size_t shift) {
    static uint8_t room[3][544];
    uint8_t *sheet = aligned(room[0]), *file = aligned(room[1]), *report = aligned(room[2]);
    Sheet t = sheet_t();
    File own = file_of(job.kind, job.numbers);
    Bytes bytes = file_bytes(&own), due = job.report;
    memcpy(sheet + shift, t.bytes, sizeof t.bytes);
    memcpy(file + shift, bytes.at, bytes.length);
    memset(room[2], 0, sizeof room[2]);
    case_begins("%s under sheet T, every buffer %zu bytes after a multiple of 16", job.name, shift);
    result_is(rembilung_verdict(sheet + shift, sizeof t.bytes, file + shift, bytes.length, report + shift, due.length),
              gives((uint32_t)due.length, due));
    if (memcmp(report + shift, due.at, due.length) != 0)
        differs("the report is not the job's");
}

static void test_addresses(Judged job) {
    for (size_t shift = 0; shift < 16; shift++)
        at_address(job, shift);
}

/* Numbers begin where C puts them, at every such distance from a multiple of 16; the sheet at every distance. */
static void ends_at_address(size_t shift) {
    static uint32_t mild[32], harsh[32], answer[32];
    static uint8_t room[544];
    size_t numbers = shift % 4;
    uint8_t *sheet = aligned(room) + shift;
    Sheet t = sheet_t();
    Answer due = outcomes_j();
    memcpy(sheet, t.bytes, sizeof t.bytes);
    memcpy(mild + numbers, job_j, sizeof job_j);
    memcpy(harsh + (numbers + shift / 4) % 4, job_j, sizeof job_j);
    memset(answer, 0, sizeof answer);
    case_begins("J at both ends, its numbers %zu and %zu numbers into a buffer, the sheet %zu bytes after a multiple of 16", numbers,
                (numbers + shift / 4) % 4, shift);
    result_is(rembilung_between(sheet, sizeof t.bytes, mild + numbers, harsh + (numbers + shift / 4) % 4, answer + numbers), due);
    if (memcmp(answer + numbers, due.written.at, due.written.length) != 0)
        differs("the answer is not J's");
}

/* Sheet and book at distances of their own; the numbers of the answer where C puts them. */
static void first_at_address(size_t shift) {
    static uint8_t room[2][544];
    static uint32_t answer[32];
    static Book book_j;
    size_t other = (5 * shift + 3) % 16, number = shift % 4;
    uint8_t *sheet = aligned(room[0]) + shift, *book = aligned(room[1]) + other;
    Sheet t = sheet_t();
    Answer due = fails_first_at(0);
    make_book(&book_j, job_j, 1);
    Bytes own = book_bytes(&book_j);
    memcpy(sheet, t.bytes, sizeof t.bytes);
    memcpy(book, own.at, own.length);
    memset(answer, 0, sizeof answer);
    case_begins("the book of J %zu bytes after a multiple of 16, the sheet %zu, the answer %zu numbers into a buffer", other,
                shift, number);
    result_is(rembilung_first_failing(sheet, sizeof t.bytes, book, own.length, answer + number), due);
    if (memcmp(answer + number, due.written.at, due.written.length) != 0)
        differs("the answer is not that of J");
}

/* Records and output at distances of their own. */
static void cells_at_address(size_t shift) {
    static const uint32_t numbers[] = {3, 3, 8};
    static uint8_t room[2][64];
    static Run run;
    size_t other = (5 * shift + 3) % 16;
    uint8_t *records = aligned(room[0]) + shift, *out = aligned(room[1]) + other;
    Answer due = pushes(numbers, 3);
    set_record(&run, 0, PUSH, bits_of(3));
    set_record(&run, 1, PULL, bits_of(9));
    set_record(&run, 2, PUSH, bits_of(8));
    memcpy(records, run.bytes, run_bytes(&run).length);
    memset(room[1], 0, sizeof room[1]);
    case_begins("three records %zu bytes after a multiple of 16, their output %zu", shift, other);
    result_is(rembilung_cells(records, run_bytes(&run).length, 2, out, due.place), due);
    if (memcmp(out, due.written.at, due.written.length) != 0)
        differs("the output is not that of the records");
}

static void test_judged(Judged job) {
    Sheet t = sheet_t();
    File file = file_of(job.kind, job.numbers);
    Answer due = gives((uint32_t)job.report.length, job.report);
    case_begins("%s under sheet T against the papers' text", job.name);
    expect_verdict(sheet_bytes(&t), file_bytes(&file), job.kind->report_most, due);
    case_begins("%s under sheet T in a buffer of just its length", job.name);
    expect_verdict(sheet_bytes(&t), file_bytes(&file), due.place, due);
}

int main(int count, char **words) {
    int within_128_gib = count == 3 && strcmp(words[2], "within-128-GiB") == 0;
    if (count != 2 + within_128_gib) {
        fprintf(stderr, "usage: calls PATH [within-128-GiB], the path of J's report, and how much address space there is\n");
        return 2;
    }
    read_report_j(words[1]);
    make_pens();
    watch_memory();
    test_judged(judged_j());
    test_judged(judged_support());
    test_addresses(judged_j());
    test_addresses(judged_support());
    for (size_t shift = 0; shift < 16; shift++)
        ends_at_address(shift);
    for (size_t shift = 0; shift < 16; shift++)
        first_at_address(shift);
    for (size_t shift = 0; shift < 16; shift++)
        cells_at_address(shift);
    test_sheets();
    test_files();
    test_ranges();
    test_order();
    test_supports();
    test_books();
    test_book_order();
    test_first();
    test_first_order();
    test_between();
    test_cells();
    test_cell_values();
    test_great_lengths(within_128_gib);
    test_vectors();
    return cases_end();
}
