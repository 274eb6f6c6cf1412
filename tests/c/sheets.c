/* Refusals 1 and 2: column sheets of every length, and every entry damaged in every way. */
#include <string.h>

#include "check.h"
#include "ends.h"
#include "failing.h"
#include "paper.h"
#include "parts.h"

enum { LAST = 250, LONGEST = 1100 };

/* J under a sheet: judged, at both ends, and in a book, where it fails check 11. */
static void judged_as(Bytes sheet, Answer due) {
    static Book book;
    File j = file_of(&scaffold, job_j);
    make_book(&book, job_j, 1);
    expect_verdict(sheet, file_bytes(&j), REMBILUNG_REPORT_MOST, due);
    expect_between(sheet, job_j, job_j, due.refusal == 0 ? outcomes_j() : due);
    expect_first_failing(sheet, book_bytes(&book), due.refusal == 0 ? fails_first_at(0) : due);
}

/* Bytes of sheet T with zeros behind, so that a longer sheet is refused for its length alone. */
static void every_length(void) {
    static uint8_t bytes[LONGEST];
    Sheet t = sheet_t();
    memcpy(bytes, t.bytes, sizeof t.bytes);
    for (uint32_t length = 0; length <= LONGEST; length++) {
        case_begins("sheet of %u bytes", (unsigned)length);
        Answer j = gives((uint32_t)report_j().length, report_j());
        judged_as((Bytes){bytes, length}, length == REMBILUNG_SHEET_BYTES ? j : refused(1, length));
    }
}

static void entry_refused(int k, uint32_t thousandths) {
    Sheet sheet = sheet_t();
    set_entry(&sheet, k, thousandths);
    case_begins("sheet T with entry %d set to %u", k, (unsigned)thousandths);
    judged_as(sheet_bytes(&sheet), refused(2, (uint32_t)k));
}

/* Two entries are wrong: the first is named. */
static void first_refused(int k, int later) {
    Sheet sheet = sheet_t();
    set_entry(&sheet, k, 0);
    set_entry(&sheet, later, 0);
    case_begins("sheet T with entries %d and %d set to 0", k, later);
    judged_as(sheet_bytes(&sheet), refused(2, (uint32_t)k));
}

static void entry_by_entry(void) {
    Sheet t = sheet_t();
    for (int k = 0; k <= LAST; k++) {
        entry_refused(k, 0);
        entry_refused(k, 1001);
        entry_refused(k, 65535);
        entry_refused(k, k == 0 ? 1002 : entry_of(&t, k - 1) + 1);
        first_refused(k, LAST);
    }
}

/* The whole sheet at one factor but for its last entry. */
static Sheet level(uint32_t thousandths, uint32_t last) {
    Sheet sheet;
    for (int k = 0; k < LAST; k++)
        set_entry(&sheet, k, thousandths);
    set_entry(&sheet, LAST, last);
    return sheet;
}

static void level_stands(uint32_t thousandths, uint32_t last) {
    Sheet sheet = level(thousandths, last);
    case_begins("sheet of %u throughout, last entry %u", (unsigned)thousandths, (unsigned)last);
    expect_between(sheet_bytes(&sheet), job_j, job_j, outcomes_of_reports(sheet_bytes(&sheet), job_j, job_j));
}

static void level_refused(uint32_t thousandths, uint32_t last, uint32_t place) {
    Sheet sheet = level(thousandths, last);
    case_begins("sheet of %u throughout, last entry %u", (unsigned)thousandths, (unsigned)last);
    judged_as(sheet_bytes(&sheet), refused(2, place));
}

void test_sheets(void) {
    every_length();
    entry_by_entry();
    level_stands(1000, 1000);
    level_stands(1000, 117);
    level_stands(117, 117);
    level_refused(1000, 116, 250);
    level_refused(116, 116, 250);
    level_refused(1, 1, 250);
    level_refused(1001, 117, 0);
}
