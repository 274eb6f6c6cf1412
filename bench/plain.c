/* The calls that judge in plain C, from document 01 and requests 1, 2, 5, 6 and 9 of document 02 as docs/DECISIONS.md reads
 * them: what the library's are measured against.
 *
 * Whole numbers throughout, each formula cleared of its fractions. Lengths are in cm, as in the job. The stability height
 * is found by division, a quotient for each of the two pole checks, and not by a search: that is the shorter way. */
#include "plain.h"
#include "plain_columns.h"

enum { SUPPORT_NUMBERS = 13, ENTRIES = 251, SHEET_TENTHS = 2500, CHECKS = 12, TEXT_ROOM = 256 };
enum { SUPPORT = 3, CLOSED_WALL = 1 };
enum { STRENGTH = 205, ELASTICITY = 206000, HEIGHT_MOST = 6000, NO_HEIGHT = -1, NO_LINE = -2 };
enum { REDUCED_FROM = 2600, REDUCED_FIRST = 2534 };

typedef struct {
    uint32_t kind, tube, step, overhang, bay, dead, live, wind, height_factor, shape, soil, ground, pad;
} Support;

typedef struct {
    uint32_t area, modulus, radius_tenths, inertia;
} Tube;

/* The stability factor as a fraction. */
typedef struct {
    uint64_t above, below;
} Factor;

/* What loads one pole, in 20,000ths of a newton: per cm of height, the fittings, the live load. */
typedef struct {
    uint64_t weight, fittings, live;
} Loads;

typedef struct {
    int verdict[CHECKS];
    uint64_t figure[CHECKS];
    int stability, permitted;
    uint64_t pressure, moment, slenderness_tenths;
} Judgement;

static const Tube tubes[] = {{489, 5080, 158, 121900}, {452, 5130, 170, 130800}};
static const uint32_t board_weight[] = {300, 350, 350};
static const uint32_t rail_weight[] = {110, 140, 140};
static const uint32_t soil_tenths[] = {4, 4, 4, 5, 10};
/* Length factors in hundredths: by spacing row and tie interval. */
static const uint32_t double_factor[3][2] = {{150, 170}, {155, 175}, {160, 180}};
static const uint32_t single_factor[2] = {180, 200};

static const Range support_ranges[SUPPORT_NUMBERS] = {
    {3, 3},    {1, 2},      {60, 200},  {0, 100},   {60, 200},  {0, 60000}, {0, 60000},
    {0, 2000}, {100, 4000}, {0, 2000},  {1, 5},     {10, 2000}, {100, 10000}};

static uint64_t divide_up(uint64_t above, uint64_t below) {
    return (above + below - 1) / below;
}

static uint32_t entry(const uint8_t *sheet, size_t k) {
    return sheet[2 * k] | (uint32_t)sheet[2 * k + 1] << 8;
}

/* Refusals 1 and 2, or 0. */
static uint64_t examine_sheet(const uint8_t *sheet, size_t length) {
    if (length != 2 * ENTRIES)
        return refuse(1, length);
    uint32_t before = 1000;
    for (size_t k = 0; k < ENTRIES; k++) {
        uint32_t now = entry(sheet, k);
        if (now == 0 || now > before)
            return refuse(2, k);
        before = now;
    }
    return before < 117 ? refuse(2, ENTRIES - 1) : 0;
}

/* Refusals 6 and 7, or 0; the first number says how many there are. */
static uint64_t read_file(const uint8_t *file, size_t length, uint32_t *numbers) {
    size_t at = 0;
    numbers[0] = 0;
    for (int k = 0; k < (numbers[0] == SUPPORT ? SUPPORT_NUMBERS : NUMBERS); k++) {
        size_t first = at;
        if (!read_number(file, length, &at, &numbers[k]))
            return refuse(6, first);
    }
    return at < length ? refuse(7, at) : 0;
}

/* Refusal 3, or 0. */
static uint64_t examine_support(const uint32_t *numbers) {
    for (int k = 0; k < SUPPORT_NUMBERS; k++)
        if (!between(numbers[k], support_ranges[k].low, support_ranges[k].high))
            return refuse(3, (uint64_t)k + 1);
    return 0;
}

/* The scaffold's shape in 100,000ths. */
static uint64_t shape_of(const Job *j) {
    return (uint64_t)j->shield * (j->enclosure == OPEN ? 100 : j->wall == CLOSED_WALL ? 120 : 156);
}

/* Pressure in N/m2 from a shape in 100,000ths, and the moment that it makes in the pole. */
static void blow(uint64_t height_factor, uint64_t shape, uint64_t wind, uint64_t bay, uint64_t step, Judgement *g) {
    g->pressure = divide_up(7 * height_factor * shape * wind, 1000000000);
    g->moment = divide_up(119 * g->pressure * bay * step * step, 1000000);
}

static uint64_t length_factor(const Job *j) {
    if (j->family == SINGLE_ROW)
        return single_factor[j->interval - 2];
    return double_factor[(j->spacing - 105) / 25][j->interval - 2];
}

/* Up to the sheet's end to a tenth, beyond it to a whole number. */
static uint64_t rounded_tenths(uint64_t above, uint64_t below) {
    uint64_t tenths = divide_up(10 * above, below);
    return tenths <= SHEET_TENTHS ? tenths : 10 * divide_up(above, below);
}

/* On the straight line between neighbouring entries; the last has no neighbour behind it. */
static Factor stability_factor(const uint8_t *sheet, uint64_t tenths) {
    uint64_t whole = tenths / 10, rest = tenths % 10;
    if (tenths > SHEET_TENTHS)
        return (Factor){7320, whole * whole};
    if (rest == 0)
        return (Factor){entry(sheet, whole), 1000};
    return (Factor){entry(sheet, whole) * (10 - rest) + entry(sheet, whole + 1) * rest, 10000};
}

static Loads loads_of(const Job *j) {
    uint64_t bay = j->bay, width = j->spacing + (j->family == DOUBLE_ROW ? 30 : 0);
    uint64_t boards = j->boarded * board_weight[j->boards - 1] * bay * width;
    uint64_t rails = 200 * j->working * rail_weight[j->boards - 1] * bay;
    return (Loads){200 * (uint64_t)j->structure, boards + rails + 20000 * (uint64_t)j->nets, j->live_all * bay * width};
}

static void set(Judgement *g, int check, uint64_t figure, int passes) {
    g->figure[check - 1] = figure;
    g->verdict[check - 1] = passes ? 1 : 2;
}

/* Checks 1 and 2. */
static void check_transom(const Job *j, const Tube *tube, Judgement *g) {
    uint64_t dead = board_weight[j->boards - 1], live = j->live_one, bay = j->bay, span = j->spacing;
    uint64_t moment = divide_up((12 * dead + 14 * live) * bay * span * span, 160000);
    set(g, 1, moment, moment <= STRENGTH * tube->modulus);
    /* In millimetres above / below; the limits are span / 15 and 10. */
    uint64_t above = (dead + live) * bay * span * span * span * span;
    uint64_t below = (uint64_t)1536 * ELASTICITY * tube->inertia;
    set(g, 2, divide_up(1000 * above, below), 15 * above <= span * below && above <= 10 * below);
}

/* Checks 3, 4 and 5. */
static void check_ledger(const Job *j, const Tube *tube, Judgement *g) {
    uint64_t dead = board_weight[j->boards - 1], live = j->live_one, bay = j->bay, span = j->spacing;
    uint64_t moment = divide_up((2100 * dead + 2982 * live) * bay * bay * span, 40000000);
    set(g, 3, moment, moment <= STRENGTH * tube->modulus);
    /* In micrometres above / below; the limits, bay / 15 and 10 mm, go beyond 64 bits. */
    unsigned __int128 above = (1146 * dead + 1615 * live) * bay * bay * bay * bay * span;
    unsigned __int128 below = (uint64_t)4000 * ELASTICITY * tube->inertia;
    set(g, 4, divide_up((uint64_t)above, (uint64_t)below), 15 * above <= 1000 * bay * below && above <= 10000 * below);
    uint64_t slip = divide_up((2580 * dead + 3220 * live) * bay * span, 40000000);
    set(g, 5, slip, slip <= 8000);
}

/* 4.3.2: light wind on an open scaffold with close ties. */
static int wind_due(const Job *j) {
    return j->wind > 350 || j->enclosure != OPEN || j->interval * j->step * 3 * j->bay > 300000;
}

static void check_slenderness(const Job *j, const Tube *tube, Judgement *g) {
    uint64_t length = length_factor(j) * j->step;
    set(g, 6, divide_up(length, tube->radius_tenths), length <= (j->family == DOUBLE_ROW ? 210 : 230) * tube->radius_tenths);
}

/* What the ground under the pad bears, in hundredths of a newton. */
static uint64_t ground_bears(uint32_t soil, uint64_t ground, uint64_t pad) {
    return soil_tenths[soil - 1] * ground * pad;
}

/* Checks 7, 8, 10 and 11 of a pole's dead and live load; the stability factor goes with the judgement's slenderness. */
static void check_force(uint64_t dead, uint64_t live, const Tube *tube, Factor phi, uint64_t bears, Judgement *g) {
    uint64_t force = divide_up(12 * dead + 14 * live, 200000);
    uint64_t with_wind = divide_up(120 * dead + 119 * live, 2000000);
    uint64_t area = phi.above * tube->area;
    set(g, 7, force, force * phi.below <= area * STRENGTH);
    set(g, 8, with_wind,
        with_wind * phi.below * tube->modulus + g->moment * area <= STRENGTH * area * tube->modulus);
    set(g, 10, force, force <= 40000);
    set(g, 11, force, 100 * force <= bears);
}

static void check_tie(const Job *j, Judgement *g) {
    uint64_t wind = divide_up(42 * g->pressure * j->interval * j->step * j->bay, 100000);
    uint64_t force = wind + (j->family == DOUBLE_ROW ? 5000 : 3000);
    set(g, 9, force, force <= j->tie_capacity);
}

/* The greatest height whose load, fixed + each * height, stays within a force; the loads in parts of a newton. */
static int height_within(uint64_t force, uint64_t parts, uint64_t fixed, uint64_t each) {
    if (force * parts < fixed)
        return NO_HEIGHT;
    uint64_t height = (force * parts - fixed) / each;
    return height < HEIGHT_MOST ? (int)height : HEIGHT_MOST;
}

static int stability_height(const Job *j, const Tube *tube, const Loads *loads, Factor phi, uint64_t moment) {
    uint64_t area = phi.above * tube->area, bending = STRENGTH * tube->modulus;
    uint64_t fixed = 12 * loads->fittings + 14 * loads->live;
    int calm = height_within(area * STRENGTH / phi.below, 200000, fixed, 12 * loads->weight);
    if (!wind_due(j))
        return calm;
    if (moment > bending)
        return NO_HEIGHT;
    uint64_t force = (bending - moment) * area / (phi.below * tube->modulus);
    int windy = height_within(force, 2000000, 120 * loads->fittings + 119 * loads->live, 120 * loads->weight);
    return calm < windy ? calm : windy;
}

/* 5.3.7 reduces from 2,600 on, to 2,534 there; a lower stability height is permitted no more than that. */
static int reduced_height(int stability) {
    if (stability >= REDUCED_FROM)
        return (int)(100000LL * stability / (100000 + stability));
    return stability < REDUCED_FIRST ? stability : REDUCED_FIRST;
}

/* Up to the family's greatest; 0 where the pole stands at no height. */
static int permitted_height(const Job *j, int stability) {
    int reduced = stability == NO_HEIGHT ? 0 : reduced_height(stability), most = j->family == DOUBLE_ROW ? 5000 : 2400;
    return reduced < most ? reduced : most;
}

static void judge(const uint8_t *sheet, const Job *j, Judgement *g) {
    const Tube *tube = &tubes[j->tube - 1];
    Loads loads = loads_of(j);
    blow(j->height_factor, shape_of(j), j->wind, j->bay, j->step, g);
    g->slenderness_tenths = rounded_tenths(1155 * length_factor(j) * j->step, 1000 * tube->radius_tenths);
    Factor phi = stability_factor(sheet, g->slenderness_tenths);
    check_transom(j, tube, g);
    check_ledger(j, tube, g);
    check_slenderness(j, tube, g);
    check_force(loads.weight * j->height + loads.fittings, loads.live, tube, phi, ground_bears(j->soil, j->ground, j->pad), g);
    if (!wind_due(j))
        g->verdict[7] = 0;
    check_tie(j, g);
    g->stability = stability_height(j, tube, &loads, phi, g->moment);
    g->permitted = permitted_height(j, g->stability);
    set(g, 12, (uint64_t)g->permitted, (int)j->height <= g->permitted);
}

/* Clause 5.6: the checks of a pole's force alone. */
static void judge_support(const uint8_t *sheet, const Support *s, Judgement *g) {
    const Tube *tube = &tubes[s->tube - 1];
    memset(g, 0, sizeof *g);
    g->stability = NO_LINE;
    blow(s->height_factor, 100 * (uint64_t)s->shape, s->wind, s->bay, s->step, g);
    g->slenderness_tenths = rounded_tenths(100 * (s->step + 2 * s->overhang), tube->radius_tenths);
    Factor phi = stability_factor(sheet, g->slenderness_tenths);
    check_force(20000 * (uint64_t)s->dead, 20000 * (uint64_t)s->live, tube, phi, ground_bears(s->soil, s->ground, s->pad), g);
}

static char *put_word(char *to, const char *word) {
    while (*word != '\0')
        *to++ = *word++;
    return to;
}

static char *put_number(char *to, uint64_t number) {
    char digits[20];
    int count = 0;
    do {
        digits[count++] = (char)('0' + number % 10);
        number /= 10;
    } while (number != 0);
    while (count > 0)
        *to++ = digits[--count];
    return to;
}

/* A word that may be empty, a number, and the space or line end after it. */
static char *put_pair(char *to, const char *word, uint64_t number, char end) {
    to = put_number(put_word(to, word), number);
    *to++ = end;
    return to;
}

static char *put_heights(char *to, const Judgement *g) {
    if (g->stability == NO_LINE)
        return to;
    if (g->stability == NO_HEIGHT)
        return put_word(to, "height none\n");
    return put_pair(put_pair(to, "height ", (uint64_t)g->stability, ' '), "", (uint64_t)g->permitted, '\n');
}

static size_t write_text(const Judgement *g, char *text) {
    char *to = text;
    for (int k = 0; k < CHECKS; k++) {
        to = put_pair(to, "", (uint64_t)k + 1, ' ');
        to = put_pair(to, "", (uint64_t)g->verdict[k], ' ');
        to = put_pair(to, "", g->figure[k], '\n');
    }
    to = put_heights(to, g);
    to = put_pair(to, "wind ", g->pressure, ' ');
    to = put_pair(to, "", g->moment, '\n');
    to = put_pair(to, "column ", g->slenderness_tenths, '\n');
    return (size_t)(to - text);
}

/* Refusals 3, 4 and 5, or 0 and the judgement. */
static uint64_t judge_numbers(const uint8_t *sheet, const uint32_t *numbers, Judgement *g) {
    Job job;
    Support support;
    if (numbers[0] == SUPPORT) {
        memcpy(&support, numbers, sizeof support);
        uint64_t refusal = examine_support(numbers);
        if (refusal == 0)
            judge_support(sheet, &support, g);
        return refusal;
    }
    memcpy(&job, numbers, sizeof job);
    uint64_t refusal = examine_job(numbers, &job);
    if (refusal == 0)
        judge(sheet, &job, g);
    return refusal;
}

uint64_t plain_verdict(const uint8_t *sheet, size_t sheet_len, const uint8_t *file, size_t file_len, uint8_t *report,
                       size_t report_len) {
    uint32_t numbers[NUMBERS];
    Judgement judgement;
    char text[TEXT_ROOM];
    uint64_t refusal = examine_sheet(sheet, sheet_len);
    if (refusal == 0)
        refusal = read_file(file, file_len, numbers);
    if (refusal == 0)
        refusal = judge_numbers(sheet, numbers, &judgement);
    if (refusal != 0)
        return refusal;
    size_t length = write_text(&judgement, text);
    if (length > report_len)
        return refuse(8, length);
    memcpy(report, text, length);
    return length;
}

enum { PASSES_THROUGHOUT = 1, FAILS_THROUGHOUT = 2, UNDECIDED = 3, FAILS = 2 };

/* What is asked of a field of the harsh job. */
typedef enum { ALIKE, NO_SMALLER, NO_GREATER, BY_FACTOR, FREE } Order;

static const Order order[NUMBERS] = {
    ALIKE,      ALIKE,      NO_SMALLER, NO_SMALLER, NO_SMALLER, NO_SMALLER, NO_SMALLER, ALIKE,      NO_SMALLER,
    NO_SMALLER, NO_SMALLER, NO_SMALLER, NO_SMALLER, NO_SMALLER, NO_SMALLER, NO_SMALLER, ALIKE,      NO_SMALLER,
    ALIKE,      FREE,       FREE,       NO_GREATER, BY_FACTOR,  NO_GREATER, NO_GREATER};

static int is_harsher(Order asked, uint32_t mild, uint32_t harsh) {
    switch (asked) {
    case ALIKE:
        return harsh == mild;
    case NO_SMALLER:
        return harsh >= mild;
    case NO_GREATER:
        return harsh <= mild;
    case BY_FACTOR:
        return soil_tenths[harsh - 1] <= soil_tenths[mild - 1];
    default:
        return 1;
    }
}

/* Refusal 12, or 0. */
static uint64_t examine_order(const uint32_t *mild, const uint32_t *harsh) {
    for (int k = 0; k < NUMBERS; k++)
        if (!is_harsher(order[k], mild[k], harsh[k]))
            return refuse(12, (uint64_t)k + 1);
    return 0;
}

/* The mild job's refusals, then the harsh job's with places behind them, then 12. */
static uint64_t examine_ends(const uint32_t *mild, const uint32_t *harsh, Job *mild_job, Job *harsh_job) {
    memcpy(mild_job, mild, sizeof *mild_job);
    memcpy(harsh_job, harsh, sizeof *harsh_job);
    uint64_t refusal = examine_job(mild, mild_job);
    if (refusal != 0)
        return refusal;
    refusal = examine_job(harsh, harsh_job);
    return refusal != 0 ? refusal + NUMBERS : examine_order(mild, harsh);
}

static uint32_t outcome_of(int mild, int harsh) {
    if (harsh != FAILS)
        return PASSES_THROUGHOUT;
    return mild == FAILS ? FAILS_THROUGHOUT : UNDECIDED;
}

static uint32_t height_of(const Judgement *g) {
    return g->stability == NO_HEIGHT ? UINT32_MAX : (uint32_t)g->stability;
}

uint64_t plain_between(const uint8_t *sheet, size_t sheet_len, const uint32_t *mild, const uint32_t *harsh, uint32_t *answer) {
    Job mild_job, harsh_job;
    Judgement at_mild, at_harsh;
    uint64_t refusal = examine_sheet(sheet, sheet_len);
    if (refusal == 0)
        refusal = examine_ends(mild, harsh, &mild_job, &harsh_job);
    if (refusal != 0)
        return refusal;
    judge(sheet, &mild_job, &at_mild);
    judge(sheet, &harsh_job, &at_harsh);
    for (int k = 0; k < CHECKS; k++)
        answer[k] = outcome_of(at_mild.verdict[k], at_harsh.verdict[k]);
    answer[CHECKS] = height_of(&at_mild);
    answer[CHECKS + 1] = height_of(&at_harsh);
    return CHECKS + 2;
}

static int row_fails(const uint8_t *sheet, const Job *j) {
    Judgement g;
    judge(sheet, j, &g);
    for (int k = 0; k < CHECKS; k++)
        if (g.verdict[k] == FAILS)
            return 1;
    return 0;
}

/* Refusal 11, or 0 and the first row that fails, or the number of rows. Rows are judged as they are examined, up to that row. */
static uint64_t search_rows(const uint8_t *sheet, const uint8_t *book, uint32_t count, size_t *column, uint32_t *first) {
    uint32_t row[NUMBERS];
    Job job;
    *first = count;
    for (uint32_t r = 0; r < count; r++) {
        take_row(book, column, row);
        memcpy(&job, row, sizeof job);
        if (examine_job(row, &job) != 0)
            return refuse(11, r);
        if (*first == count && row_fails(sheet, &job))
            *first = r;
    }
    return 0;
}

uint64_t plain_first_failing(const uint8_t *sheet, size_t sheet_len, const uint8_t *book, size_t book_len, uint32_t *answer) {
    size_t column[NUMBERS];
    uint32_t count, first;
    uint64_t refusal = examine_sheet(sheet, sheet_len);
    if (refusal == 0)
        refusal = open_book(book, book_len, &count, column);
    if (refusal == 0)
        refusal = search_rows(sheet, book, count, column, &first);
    if (refusal != 0)
        return refusal;
    answer[0] = first < count ? first : UINT32_MAX;
    answer[1] = first < count ? first + 1 : count;
    return 2;
}
