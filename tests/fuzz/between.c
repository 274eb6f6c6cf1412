/* Fuzzes two jobs and one between them: what is told of the two has to hold of the third, and is said in one line that shows no
 * control; a pair that is no mild and harsh one is named by a field and explained. */
#define _POSIX_C_SOURCE 200809L
#include "fuzz.h"
#include "jobs.h"
#include "order.h"
#include "outcomes.h"
#include "rembilung.h"
#include "report.h"
#include "sheet.h"

/* How a field goes from the mild end to the harsh one. */
typedef enum { UP, DOWN, ALIKE, ANY } Way;

static const Way ways[REMBILUNG_NUMBERS] = {ALIKE, ALIKE, UP, UP,    UP, UP,    UP,  ALIKE, UP,   UP,   UP,   UP,  UP,
                                            UP,    UP,    UP, ALIKE, UP, ALIKE, ANY, ANY,   DOWN, DOWN, DOWN, DOWN};

static const uint32_t spacings[] = {105, 130, 155};
/* Soils from the mildest to the harshest; the last three are alike. */
static const uint32_t soils[] = {5, 4, 3, 2, 1};

static uint32_t any_of(const uint8_t *data, size_t size, size_t at) {
    return at + 1 < size ? data[at] + 256u * data[at + 1] : (uint32_t)at;
}

/* A number from one to another, both among them. */
static uint32_t number_between(uint32_t from, uint32_t to, uint32_t any) {
    return from <= to ? from + any % (to - from + 1) : from - any % (from - to + 1);
}

/* A number as harsh as the mild one, and, where there is an end, no harsher than it. */
static uint32_t harsher(int k, uint32_t mild, const uint32_t *end, uint32_t any) {
    Way way = ways[k];
    uint32_t far = end != NULL ? *end : way == DOWN ? double_row.least[k] : double_row.most[k];
    return way == ALIKE ? mild : way == ANY ? number_between(double_row.least[k], double_row.most[k], any)
                                            : number_between(mild, far, any);
}

/* Spacing and soil go by their places in a row; the others by themselves. */
static uint32_t harsher_of(int k, uint32_t mild, const uint32_t *end, uint32_t any) {
    const uint32_t *row = k == REMBILUNG_SPACING ? spacings : soils;
    uint32_t first = 0, last = k == REMBILUNG_SPACING ? 2 : 4;
    if (k != REMBILUNG_SPACING && k != REMBILUNG_SOIL)
        return harsher(k, mild, end, any);
    while (row[first] != mild)
        first++;
    while (end != NULL && row[last] != *end)
        last--;
    return row[number_between(first, last, any)];
}

static void harsher_job(const uint8_t *data, size_t size, size_t at, const uint32_t *mild, const uint32_t *end, uint32_t *job) {
    for (int k = 0; k < REMBILUNG_NUMBERS; k++)
        job[k] = harsher_of(k, mild[k], end == NULL ? NULL : &end[k], any_of(data, size, at + 2 * (size_t)k));
}

static Report judged(const Sheet *sheet, const uint32_t *job) {
    uint8_t file[REMBILUNG_FILE_MOST], bytes[REMBILUNG_REPORT_MOST];
    Report report;
    uint64_t made = rembilung_write_job(job, file, sizeof file);
    MUST(!rembilung_refused(made));
    uint64_t done = rembilung_verdict(sheet->bytes, sheet->length, file, (size_t)made, bytes, sizeof bytes);
    MUST(!rembilung_refused(done) && read_report(bytes, (size_t)done, &scaffold, &report));
    return report;
}

/* None is the least. */
static uint64_t rank(uint32_t height) {
    return height == REMBILUNG_NONE ? 0 : 1 + (uint64_t)height;
}

static void holds(const uint32_t *answer, const Report *between) {
    uint64_t height = between->stands ? 1 + (uint64_t)between->stability : 0;
    for (int k = 0; k < CHECKS; k++) {
        MUST(answer[k] != REMBILUNG_PASSES_THROUGHOUT || between->verdicts[k] != FAILS);
        MUST(answer[k] != REMBILUNG_FAILS_THROUGHOUT || between->verdicts[k] == FAILS);
    }
    MUST(rank(answer[REMBILUNG_BETWEEN_HARSH_HEIGHT]) <= height && height <= rank(answer[REMBILUNG_BETWEEN_MILD_HEIGHT]));
}

static void is_the_ends(const uint32_t *answer, const Report *mild, const Report *harsh) {
    for (int k = 0; k < CHECKS; k++)
        MUST(answer[k] == (harsh->verdicts[k] != FAILS  ? REMBILUNG_PASSES_THROUGHOUT
                           : mild->verdicts[k] == FAILS ? REMBILUNG_FAILS_THROUGHOUT
                                                        : REMBILUNG_UNDECIDED));
    holds(answer, mild);
    holds(answer, harsh);
}

/* As many lines as are due, and printable ASCII alone. */
static void lines_are(char *text, size_t length, int due) {
    int lines = 0;
    for (size_t k = 0; k < length; k++) {
        MUST(text[k] == '\n' || (text[k] >= ' ' && text[k] <= '~'));
        lines += text[k] == '\n';
    }
    MUST(lines == due && length > 0 && text[length - 1] == '\n');
    free(text);
}

static void shown(const uint32_t *answer, const uint32_t *mild, const uint32_t *harsh) {
    char *printed = NULL, *said = NULL;
    size_t printed_length = 0, said_length = 0;
    FILE *out = open_memstream(&printed, &printed_length), *words = open_memstream(&said, &said_length);
    MUST(out != NULL && words != NULL && are_outcomes(answer));
    print_outcomes(out, answer);
    say_conclusion(words, answer, mild, harsh);
    MUST(fclose(out) == 0 && fclose(words) == 0);
    lines_are(printed, printed_length, CHECKS + 1);
    lines_are(said, said_length, 1);
}

/* The lowest field that does not go its way, by the rows and ranges here, or 0. */
static uint32_t first_wrong(const uint32_t *mild, const uint32_t *harsh) {
    static const uint32_t factor[] = {4, 4, 4, 5, 10};
    for (int k = 0; k < REMBILUNG_NUMBERS; k++) {
        uint32_t m = k == REMBILUNG_SOIL ? factor[mild[k] - 1] : mild[k];
        uint32_t h = k == REMBILUNG_SOIL ? factor[harsh[k] - 1] : harsh[k];
        if ((ways[k] == ALIKE && m != h) || (ways[k] == UP && h < m) || (ways[k] == DOWN && h > m))
            return (uint32_t)k + 1;
    }
    return 0;
}

/* Any two jobs: they are ordered, or the field is named that is not, and explained. */
static void any_two(const Sheet *sheet, const uint32_t *mild, const uint32_t *harsh) {
    uint32_t answer[REMBILUNG_BETWEEN_NUMBERS], field = first_wrong(mild, harsh);
    Text words = {{0}, 0};
    uint64_t told = rembilung_between(sheet->bytes, sheet->length, mild, harsh, answer);
    MUST(field == 0 ? told == REMBILUNG_BETWEEN_NUMBERS : told == ((uint64_t)12 << 32 | field));
    if (field == 0)
        return;
    explain_order(&words, field, mild, harsh);
    MUST(words.length > 20 && words.length < TEXT_ROOM - 1);
}

int LLVMFuzzerTestOneInput(const uint8_t *data, size_t size) {
    static Sheet sheet;
    uint32_t mild[REMBILUNG_NUMBERS], harsh[REMBILUNG_NUMBERS], between[REMBILUNG_NUMBERS], answer[REMBILUNG_BETWEEN_NUMBERS];
    (size % 2 == 0 ? test_sheet : example_sheet)(&sheet);
    numbers_of(data, size, &double_row, mild);
    mild[REMBILUNG_SPACING] = spacings[any_of(data, size, 2 * REMBILUNG_SPACING) % 3];
    harsher_job(data, size, 2 * REMBILUNG_NUMBERS, mild, NULL, harsh);
    harsher_job(data, size, 4 * REMBILUNG_NUMBERS, mild, harsh, between);
    MUST(rembilung_between(sheet.bytes, sheet.length, mild, harsh, answer) == REMBILUNG_BETWEEN_NUMBERS);
    Report at_mild = judged(&sheet, mild), at_harsh = judged(&sheet, harsh), at_between = judged(&sheet, between);
    is_the_ends(answer, &at_mild, &at_harsh);
    holds(answer, &at_between);
    shown(answer, mild, harsh);
    any_two(&sheet, harsh, mild);
    any_two(&sheet, between, harsh);
    numbers_of(data + size / 2, size - size / 2, &double_row, between);
    any_two(&sheet, between, mild);
    return 0;
}
