/* Counts what became of the rows of a table, and sums it up. */
#include "tally.h"

#include <inttypes.h>

#include "explain.h"

void tally_judged(Tally *tally, const Report *report) {
    if (first_failing(report) == 0)
        tally->pass++;
    else
        tally->fail++;
    for (int k = 0; k < CHECKS; k++)
        tally->failed[k] += report->verdicts[k] == FAILS;
}

void tally_refused(Tally *tally, uint32_t refusal) {
    tally->refused[refusal <= REFUSALS ? refusal : 0]++;
}

uint64_t all_refused(const Tally *tally) {
    uint64_t all = 0;
    for (int k = 0; k <= REFUSALS; k++)
        all += tally->refused[k];
    return all;
}

static void print_refusals(FILE *to, const Tally *tally) {
    for (uint32_t k = 0; k <= REFUSALS; k++)
        if (tally->refused[k] > 0)
            fprintf(to, "rembilung: refused %" PRIu32 ", %s: %" PRIu64 "\n", k, refusal_kind(k), tally->refused[k]);
}

static void print_failures(FILE *to, const Tally *tally) {
    for (int k = 0; k < CHECKS; k++)
        if (tally->failed[k] > 0)
            fprintf(to, "rembilung: failed check %d, %s: %" PRIu64 "\n", k + 1, check_names[k], tally->failed[k]);
}

void print_tally(FILE *to, const Tally *tally) {
    fprintf(to, "rembilung: accepted: %" PRIu64 ", of which %" PRIu64 " pass every check due and %" PRIu64 " fail\n",
            tally->pass + tally->fail, tally->pass, tally->fail);
    print_failures(to, tally);
    fprintf(to, "rembilung: refused: %" PRIu64 "\n", all_refused(tally));
    print_refusals(to, tally);
    fprintf(to, "rembilung: unreadable: %" PRIu64 "\n", tally->unreadable);
}
