/* Times the library's calls against plain C, class by class and for the mix: time [ROUNDS]. */
#define _POSIX_C_SOURCE 200809L
#include <stdio.h>
#include <stdlib.h>
#include <time.h>

#include "calls.h"

enum { ROUNDS = 1000, BLOCK = 10, ROUNDS_MOST = 10000, SAMPLE_NS = 200000 };

static List lists[LISTS];
static int times[LISTS];
static double taken[LISTS][VERSIONS_MOST][ROUNDS_MOST];
static double ratio_to[LISTS][VERSIONS_MOST];
static volatile uint64_t kept;

static double now(void) {
    struct timespec t;
    clock_gettime(CLOCK_MONOTONIC, &t);
    return 1e9 * (double)t.tv_sec + (double)t.tv_nsec;
}

static double sample(const Version *version, const List *list, int times) {
    double begin = now();
    kept += send(version, list, times);
    return (now() - begin) / ((double)times * list->count);
}

/* So many passes that one sample is long beside the clock's own time. */
static int passes(const List *list) {
    int count = 1;
    while (count < 100000 && sample(&versions[0], list, count) * count * list->count < SAMPLE_NS)
        count *= 2;
    return count;
}

/* A block of rounds on one list, after one that is not kept. Every round samples each version once, in turning order, so that
 * a change of clock speed meets all alike. */
static void take_block(int list, int first) {
    for (int r = -1; r < BLOCK; r++) {
        for (int v = 0; v < lists[list].versions; v++) {
            int which = r % 2 == 0 ? v : lists[list].versions - 1 - v;
            double ns = sample(&versions[which], &lists[list], times[list]);
            if (r >= 0)
                taken[list][which][first + r] = ns;
        }
    }
}

/* Blocks go round the lists, so that what else the machine does meets all of them alike too. */
static void take(int rounds) {
    for (int k = 0; k < LISTS; k++) {
        lists[k] = list_of(k);
        times[k] = passes(&lists[k]);
    }
    for (int first = 0; first < rounds; first += BLOCK)
        for (int k = 0; k < LISTS; k++)
            take_block(k, first);
}

static int by_size(const void *a, const void *b) {
    double x = *(const double *)a, y = *(const double *)b;
    return (x > y) - (x < y);
}

/* The value below which a share of the sorted values lies. */
static double share(const double *sorted, int count, double part) {
    return sorted[(int)(part * (count - 1) + 0.5)];
}

static double median_ns(int list, int which, int rounds) {
    static double sorted[ROUNDS_MOST];
    for (int r = 0; r < rounds; r++)
        sorted[r] = taken[list][which][r];
    qsort(sorted, (size_t)rounds, sizeof sorted[0], by_size);
    return share(sorted, rounds, 0.5);
}

/* The ratio of neighbouring samples, round by round: median and spread. */
static void show_ratio(int list, int which, int rounds) {
    static double ratio[ROUNDS_MOST];
    for (int r = 0; r < rounds; r++)
        ratio[r] = taken[list][0][r] / taken[list][which][r];
    qsort(ratio, (size_t)rounds, sizeof ratio[0], by_size);
    ratio_to[list][which] = share(ratio, rounds, 0.5);
    printf(" %.3f (%.3f..%.3f) |", ratio_to[list][which], share(ratio, rounds, 0.05), share(ratio, rounds, 0.95));
}

/* A column for each version. */
static void show_names(const char *unit) {
    for (int v = 0; v < version_count; v++)
        printf(" %s, %s |", versions[v].name, unit);
}

static void show_ratio_names(void) {
    for (int v = 1; v < version_count; v++)
        printf(" library / %s |", versions[v].name);
    printf("\n");
}

static void show_line(int columns) {
    for (int c = 0; c < columns; c++)
        printf("|---");
    printf("|\n");
}

static void show_ns(int list, int rounds) {
    for (int v = 0; v < lists[list].versions; v++)
        printf(" %.1f |", median_ns(list, v, rounds));
}

/* Bytes in a nanosecond are thousands of MB, of a million bytes each, in a second. */
static void show_rates(int list, int rounds) {
    for (int v = 0; v < version_count; v++)
        printf(" %.0f |", 1000 * bytes_of(list) / median_ns(list, v, rounds));
}

static void show_ratios(int list, int rounds) {
    for (int v = 1; v < version_count; v++)
        show_ratio(list, v, rounds);
    printf("\n");
}

static void show_calls(int rounds) {
    printf("| class | share |");
    show_names("ns");
    show_ratio_names();
    show_line(1 + 2 * version_count);
    for (int k = 0; k <= MIXED; k++) {
        printf("| %s | %d |", lists[k].name, share_of(k));
        show_ns(k, rounds);
        show_ratios(k, rounds);
    }
}

static void show_books(int rounds) {
    printf("| books | bytes |");
    show_names("ns");
    show_names("MB/s");
    show_ratio_names();
    show_line(1 + 3 * version_count);
    for (int k = BOOK_LISTS; k < PAIR_LISTS; k++) {
        printf("| %s | %.0f |", lists[k].name, bytes_of(k));
        show_ns(k, rounds);
        show_rates(k, rounds);
        show_ratios(k, rounds);
    }
}

static void show_pairs(int rounds) {
    printf("| two jobs |");
    show_names("ns");
    show_ratio_names();
    show_line(2 * version_count);
    for (int k = PAIR_LISTS; k < CELL_LISTS; k++) {
        printf("| %s |", lists[k].name);
        show_ns(k, rounds);
        show_ratios(k, rounds);
    }
}

static void show_cells(int rounds) {
    printf("| load cells | records |");
    show_names("ns");
    printf(" library, ns a record |");
    show_ratio_names();
    show_line(2 + 2 * version_count);
    for (int k = CELL_LISTS; k < FAILING_LISTS; k++) {
        int records = cell_class_of(k)->records;
        printf("| %s | %d |", lists[k].name, records);
        show_ns(k, rounds);
        printf(" %.2f |", median_ns(k, 0, rounds) / records);
        show_ratios(k, rounds);
    }
}

static void show_failing(int rounds) {
    printf("| books | rows |");
    show_names("ns");
    show_ratio_names();
    show_line(1 + 2 * version_count);
    for (int k = FAILING_LISTS; k < PART_LISTS; k++) {
        printf("| %s | %d |", lists[k].name, failing_class_of(k)->rows);
        show_ns(k, rounds);
        show_ratios(k, rounds);
    }
}

static void show_parts(const char *of, int first, int end, int rounds) {
    printf("| %s | library, ns |\n|---|---|\n", of);
    for (int part = first; part < end; part++)
        printf("| %s | %.1f |\n", lists[PART_LISTS + part].name, median_ns(PART_LISTS + part, 0, rounds));
}

/* Two judgements are what two calls into no room have beside the readings; each examines the sheet. */
static void show_judgements(int rounds) {
    double both = median_ns(PAIR_LISTS, 0, rounds), calls = median_ns(PART_LISTS + TWO_CALLS, 0, rounds);
    double judgements = median_ns(PART_LISTS + INTO_NO_ROOM, 0, rounds) - median_ns(PART_LISTS + TWO_READINGS, 0, rounds);
    double sheet = median_ns(PART_LISTS + SHEET_ALONE, 0, rounds);
    printf("- time, two jobs: the call / two whole calls = %.3f\n", both / calls);
    printf("- time, two jobs: the call / two judgements = %.3f (aim: at most 1.05): %s\n", both / judgements,
           both <= 1.05 * judgements ? "met" : "NOT MET");
    printf("- time, two jobs: the call / two judgements without the second examination of the sheet = %.3f\n",
           both / (judgements - sheet));
}

static void show_aim(int list) {
    for (int v = 1; v < version_count; v++)
        printf("- time, %s: library / %s = %.3f (aim: at most 1.00): %s\n", lists[list].name, versions[v].name,
               ratio_to[list][v], ratio_to[list][v] <= 1.0 ? "met" : "NOT MET");
}

/* Of the lists with an aim the one of the greatest ratio speaks for all. */
static void show_cell_aim(int which) {
    int most = CELL_LISTS;
    for (int k = CELL_LISTS; k < CELL_LISTS + CELL_AIMS; k++)
        most = ratio_to[k][which] > ratio_to[most][which] ? k : most;
    printf("- time, load cells: library / %s = %.3f at most, %s (aim: at most 1.00): %s\n", versions[which].name,
           ratio_to[most][which], lists[most].name, ratio_to[most][which] <= 1.0 ? "met" : "NOT MET");
}

/* The time may not grow with w: the longest stretch is held to one of 10 records, of the same runs. */
static void show_stretches(int rounds) {
    for (int order = 0; order < CELL_ORDERS; order++) {
        int longest = CELL_LISTS + CELL_STRETCHES * order + CELL_STRETCHES - 1;
        double ratio = median_ns(longest, 0, rounds) / median_ns(longest - 1, 0, rounds);
        printf("- time, load cells: %s / %s = %.3f (aim: at most 1.30): %s\n", lists[longest].name, lists[longest - 1].name, ratio,
               ratio <= 1.3 ? "met" : "NOT MET");
    }
}

/* To plain C the call has no aim. */
static void show_failing_ratios(int which) {
    for (int class = NONE_FAILS; class <= ROW_0_FAILS; class++)
        printf("- time, first failing row: %s, library / %s = %.3f\n", failing_classes[class].name, versions[which].name,
               ratio_to[FAILING_LISTS + class][which]);
}

static void show_promise(const char *what, double call, double others) {
    printf("- time, first failing row: %s = %.3f (aim: at most 1.05): %s\n", what, call / others,
           call <= 1.05 * others ? "met" : "NOT MET");
}

/* What the call promises beside the library's other calls. The samples of two calls differ by some hundredths on their own. */
static void show_promises(int rounds) {
    double none = median_ns(FAILING_LISTS + NONE_FAILS, 0, rounds), row_0 = median_ns(FAILING_LISTS + ROW_0_FAILS, 0, rounds);
    double read = median_ns(PART_LISTS + BOOK_READ, 0, rounds), one = median_ns(PART_LISTS + ROW_0_CALL, 0, rounds);
    show_promise("200 rows that pass / a whole call on each", none, median_ns(PART_LISTS + ROW_CALLS, 0, rounds));
    show_promise("row 0 of 200 fails / the book read and a whole call on that row", row_0, read + one);
}

static int inputs_compared(void) {
    int count = 0;
    for (int k = 0; k < PART_LISTS; k++)
        count += k == MIXED ? 0 : lists[k].count;
    return count;
}

static int rounds_of(int words, char **word) {
    char *end = "";
    long rounds = words > 1 ? strtol(word[1], &end, 10) : ROUNDS;
    if (words > 2 || *end != '\0' || rounds < BLOCK || rounds > ROUNDS_MOST || rounds % BLOCK != 0) {
        fprintf(stderr, "usage: time [ROUNDS], a multiple of %d up to %d\n", BLOCK, ROUNDS_MOST);
        exit(2);
    }
    return (int)rounds;
}

int main(int words, char **word) {
    int rounds = rounds_of(words, word);
    make_and_compare();
    take(rounds);
    printf("All versions gave the same answer and the same bytes on %d inputs.\n", inputs_compared());
    printf("Time of a call in ns, median of %d rounds; ratios: median (5%%..95%%) over rounds; ", rounds);
    printf("share in the mix out of %d.\n\n", MIX);
    show_calls(rounds);
    printf("\nThe calls on books; the bytes of a book are a mean over the class, and an MB is 1,000,000 bytes.\n\n");
    show_books(rounds);
    printf("\nThe call on a mild and a harsh job.\n\n");
    show_pairs(rounds);
    printf("\nWhat the library's calls on one job take of the same pairs.\n\n");
    show_parts("of the accepted two jobs", TWO_CALLS, PAIR_PARTS, rounds);
    printf("\nThe call on load cells.\n\n");
    show_cells(rounds);
    printf("\nThe call on the first failing row.\n\n");
    show_failing(rounds);
    printf("\nWhat the library's other calls take of the same books.\n\n");
    show_parts("of the books of the first two lines", ROW_CALLS, PARTS, rounds);
    printf("\n");
    for (int k = 0; k < LISTS; k++)
        if (has_aim(k))
            show_aim(k);
    show_judgements(rounds);
    for (int v = 1; v < version_count; v++)
        show_cell_aim(v);
    show_stretches(rounds);
    for (int v = 1; v < version_count; v++)
        show_failing_ratios(v);
    show_promises(rounds);
    return 0;
}
