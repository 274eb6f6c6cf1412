/* Refusals 6 and 7: job files cut at every byte, with bytes behind, and with every number damaged in every way. */
#include <string.h>

#include "check.h"
#include "damage.h"
#include "paper.h"
#include "parts.h"

/* Reading, and the whole call under a good sheet, answer alike. */
static void refused_as(Bytes file, uint32_t refusal, uint32_t place) {
    Sheet t = sheet_t();
    expect_verdict(sheet_bytes(&t), file, REMBILUNG_REPORT_MOST, refused(refusal, place));
    expect_read(file, refused(refusal, place));
}

/* How many numbers of the file end within the length. */
static size_t whole_numbers(const File *file, size_t length) {
    size_t count = 0;
    while (count < file->count && file->offset[count + 1] <= length)
        count++;
    return count;
}

static void cut(const Judged *job) {
    File file = file_of(job->kind, job->numbers);
    for (size_t length = 0; length < file_bytes(&file).length; length++) {
        case_begins("the file of %s cut to %zu bytes", job->name, length);
        refused_as((Bytes){file.bytes, length}, 6, (uint32_t)file.offset[whole_numbers(&file, length)]);
    }
}

/* One byte to many behind, of several kinds: the first is named whatever it is. */
static void extended(const Judged *job, uint8_t with) {
    uint8_t bytes[1024];
    File file = file_of(job->kind, job->numbers);
    Bytes whole = file_bytes(&file);
    memset(bytes, with, sizeof bytes);
    memcpy(bytes, whole.at, whole.length);
    for (size_t more = 1; more <= sizeof bytes - whole.length; more += more < 8 ? 1 : 97) {
        case_begins("the file of %s with %zu bytes %02x (hexadecimal) behind it", job->name, more, with);
        refused_as((Bytes){bytes, whole.length + more}, 7, (uint32_t)whole.length);
    }
}

static void damaged(const Judged *job, size_t k, const Damage *damage) {
    uint8_t bytes[FILE_ROOM];
    File file = file_of(job->kind, job->numbers);
    size_t length = replaced(file_bytes(&file), file.offset[k], file.offset[k + 1], damage, bytes);
    case_begins("the file of %s with number %zu as %s (hexadecimal)", job->name, k + 1, damage->what);
    if (!damage->is_number)
        refused_as((Bytes){bytes, length}, 6, (uint32_t)file.offset[k]);
    else if (k == 0 && job->kind == &support)
        /* Its first number is no 3 any more, and of 25 numbers most are missing. */
        refused_as((Bytes){bytes, length}, 6, (uint32_t)length);
    else
        refused_as((Bytes){bytes, length}, 3, (uint32_t)k + 1);
}

static void damaged_at(const Judged *job, size_t k) {
    for (size_t d = 0; d < DAMAGES; d++)
        damaged(job, k, &damages[d]);
}

static void every_way(Judged job) {
    static const uint8_t behind[] = {0x00, 0x01, 0x80, 0xFF};
    cut(&job);
    for (size_t k = 0; k < sizeof behind; k++)
        extended(&job, behind[k]);
    for (size_t k = 0; k < job.kind->count; k++)
        damaged_at(&job, k);
}

void test_files(void) {
    every_way(judged_j());
    every_way(judged_support());
}
