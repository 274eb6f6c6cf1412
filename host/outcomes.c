/* Shows what holds of every accepted job between a mild and a harsh one. */
#include "outcomes.h"

#include <inttypes.h>

#include "fields.h"
#include "order.h"
#include "report.h"

static const char *const outcome_names[] = {
    [REMBILUNG_PASSES_THROUGHOUT] = "passes throughout",
    [REMBILUNG_FAILS_THROUGHOUT] = "fails throughout",
    [REMBILUNG_UNDECIDED] = "undecided",
};

int are_outcomes(const uint32_t *answer) {
    int k = 0;
    while (k < CHECKS && answer[k] >= REMBILUNG_PASSES_THROUGHOUT && answer[k] <= REMBILUNG_UNDECIDED)
        k++;
    return k == CHECKS;
}

static void print_height(FILE *to, uint32_t height) {
    if (height == REMBILUNG_NONE)
        fputs(" none", to);
    else
        fprintf(to, " %" PRIu32, height);
}

void print_outcomes(FILE *to, const uint32_t *answer) {
    for (int k = 0; k < CHECKS; k++)
        fprintf(to, "%d %" PRIu32 " %s: %s\n", k + 1, answer[k], outcome_names[answer[k]], check_names[k]);
    fputs("heights", to);
    print_height(to, answer[REMBILUNG_BETWEEN_MILD_HEIGHT]);
    print_height(to, answer[REMBILUNG_BETWEEN_HARSH_HEIGHT]);
    fputs(" stability at the mild and at the harsh end, cm\n", to);
}

static void say_changed(FILE *said, const uint32_t *answer) {
    say_checks(said, answer, REMBILUNG_FAILS_THROUGHOUT);
    fprintf(said, " %s for every accepted job between the two ends: whatever is found there, the scaffold has to be changed\n",
            count_checks(answer, REMBILUNG_FAILS_THROUGHOUT) == 1 ? "fails" : "fail");
}

/* The numbers that differ where a check may hang on it, from the mild end to the harsh. */
static void say_open(FILE *said, const uint32_t *mild, const uint32_t *harsh) {
    const char *before = " ";
    for (int k = 0; k < REMBILUNG_NUMBERS; k++) {
        if (!is_open(k, mild, harsh))
            continue;
        fprintf(said, "%snumber %d, %s, from %" PRIu32 " to %" PRIu32, before, k + 1, scaffold.fields[k].name, mild[k],
                harsh[k]);
        before = "; ";
    }
    fputs("\n", said);
}

static void say_undecided(FILE *said, const uint32_t *answer, const uint32_t *mild, const uint32_t *harsh) {
    int one = count_checks(answer, REMBILUNG_UNDECIDED) == 1;
    say_checks(said, answer, REMBILUNG_UNDECIDED);
    fprintf(said, " %s at the mild end and %s at the harsh end, and %s for what is found of", one ? "passes" : "pass",
            one ? "fails" : "fail", one ? "waits" : "wait");
    say_open(said, mild, harsh);
}

void say_conclusion(FILE *said, const uint32_t *answer, const uint32_t *mild, const uint32_t *harsh) {
    fputs("rembilung: ", said);
    if (count_checks(answer, REMBILUNG_FAILS_THROUGHOUT) > 0)
        say_changed(said, answer);
    else if (count_checks(answer, REMBILUNG_UNDECIDED) > 0)
        say_undecided(said, answer, mild, harsh);
    else
        fputs("no check fails for any accepted job between the two ends: whatever is found there, the scaffold passes\n", said);
}
