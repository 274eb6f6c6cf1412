/* A mild and a harsh job: what each field of the one may be beside the other's, which refusal goes first, and cases by hand. */
#include <string.h>

#include "check.h"
#include "ends.h"
#include "paper.h"
#include "parts.h"

/* How a field goes: from the mild end to the harsh one way only, or it is the same in both, or it is free. */
typedef enum { ONE_WAY, ALIKE, FREE } Way;

/* Two numbers of a field, first those of the mild and the harsh end next to one another, then those farthest apart; a job of
 * which any field is any of the four stands, whatever the others of this table are. */
typedef struct {
    Way way;
    uint32_t mild, harsh, mildest, harshest;
} Field;

static const Field fields[REMBILUNG_NUMBERS] = {
    {ALIKE, 1, 2, 1, 2},                     {ALIKE, 1, 2, 1, 2},               {ONE_WAY, 105, 130, 105, 130},
    {ONE_WAY, 100, 101, 60, 200},            {ONE_WAY, 100, 101, 60, 200},      {ONE_WAY, 2, 3, 2, 3},
    {ONE_WAY, 2000, 2001, 1, 2400},          {ALIKE, 1, 2, 1, 3},               {ONE_WAY, 9, 10, 9, 10},
    {ONE_WAY, 2, 3, 1, 9},                   {ONE_WAY, 2000, 2001, 0, 10000},   {ONE_WAY, 10000, 10001, 10000, 30000},
    {ONE_WAY, 100, 101, 0, 5000},            {ONE_WAY, 200, 201, 50, 500},      {ONE_WAY, 300, 301, 0, 2000},
    {ONE_WAY, 1000, 1001, 100, 4000},        {ALIKE, 1, 2, 1, 3},               {ONE_WAY, 299, 300, 1, 700},
    {ALIKE, 1, 2, 1, 2},                     {FREE, 240, 241, 0, 2000},         {FREE, 1, 2, 1, 3},
    {ONE_WAY, 20001, 20000, 100000, 8000},   {ONE_WAY, 5, 4, 5, 1},             {ONE_WAY, 201, 200, 2000, 10},
    {ONE_WAY, 2001, 2000, 10000, 100},
};

/* A single row can stand as a job of the table only where these are so. */
enum { THICK_ENOUGH = 240, SOUND = 1 };

typedef struct {
    uint32_t mild[REMBILUNG_NUMBERS], harsh[REMBILUNG_NUMBERS];
} Pair;

/* Every field at its mild number at both ends. */
static Pair equal_pair(void) {
    Pair pair;
    for (int k = 0; k < REMBILUNG_NUMBERS; k++)
        pair.mild[k] = pair.harsh[k] = fields[k].mild;
    return pair;
}

/* A field of both ends, from 1. */
static void set(Pair *pair, int field, uint32_t mild, uint32_t harsh) {
    pair->mild[field - 1] = mild;
    pair->harsh[field - 1] = harsh;
}

/* The way that a pair may go, or the other. */
static void go_right(Pair *pair, int field) {
    const Field *one = &fields[field - 1];
    set(pair, field, one->mild, one->way == ALIKE ? one->mild : one->harsh);
}

static void go_wrong(Pair *pair, int field) {
    set(pair, field, fields[field - 1].harsh, fields[field - 1].mild);
}

static int can_go_wrong(int field) {
    return fields[field - 1].way != FREE;
}

static void pair_refused(const Pair *pair, uint32_t refusal, uint32_t place) {
    Sheet t = sheet_t();
    expect_between(sheet_bytes(&t), pair->mild, pair->harsh, refused(refusal, place));
}

static void pair_stands(const Pair *pair) {
    Sheet t = sheet_t();
    expect_between(sheet_bytes(&t), pair->mild, pair->harsh, outcomes_of_reports(sheet_bytes(&t), pair->mild, pair->harsh));
}

static void one_field(int field, uint32_t mild, uint32_t harsh, int stands) {
    Pair pair = equal_pair();
    set(&pair, field, mild, harsh);
    case_begins("field %d, %u at the mild end and %u at the harsh", field, (unsigned)mild, (unsigned)harsh);
    if (stands)
        pair_stands(&pair);
    else
        pair_refused(&pair, 12, (uint32_t)field);
}

static void every_field(void) {
    for (int field = 1; field <= REMBILUNG_NUMBERS; field++) {
        const Field *one = &fields[field - 1];
        one_field(field, one->mild, one->mild, 1);
        one_field(field, one->harsh, one->harsh, 1);
        one_field(field, one->mild, one->harsh, one->way != ALIKE);
        one_field(field, one->harsh, one->mild, one->way == FREE);
        one_field(field, one->mildest, one->harshest, one->way != ALIKE);
        one_field(field, one->harshest, one->mildest, one->way == FREE);
    }
}

/* Half closed at both ends, each shield below 30 % or not. */
static void half_closed(uint32_t mild, uint32_t harsh) {
    Pair pair = equal_pair();
    set(&pair, 17, 2, 2);
    set(&pair, 18, mild, harsh);
    case_begins("half closed, shield %u at the mild end and %u at the harsh", (unsigned)mild, (unsigned)harsh);
    if (mild <= harsh)
        pair_stands(&pair);
    else
        pair_refused(&pair, 12, 18);
}

static void every_half_closed(void) {
    static const uint32_t shields[] = {1, 2, 298, 299, 300, 301, 700};
    for (size_t k = 0; k < sizeof shields / sizeof *shields; k++)
        for (size_t n = 0; n < sizeof shields / sizeof *shields; n++)
            half_closed(shields[k], shields[n]);
}

/* Of two that go the wrong way the lower is named. */
static void two_fields(int lower, int higher) {
    Pair pair = equal_pair();
    go_wrong(&pair, lower);
    go_wrong(&pair, higher);
    case_begins("fields %d and %d both the wrong way", lower, higher);
    pair_refused(&pair, 12, (uint32_t)lower);
}

static void every_two_fields(void) {
    for (int lower = 1; lower < REMBILUNG_NUMBERS; lower++)
        for (int higher = lower + 1; higher <= REMBILUNG_NUMBERS; higher++)
            if (can_go_wrong(lower) && can_go_wrong(higher))
                two_fields(lower, higher);
}

/* Every field the right way but one, and every field at once. */
static void all_but(int field) {
    Pair pair = equal_pair();
    for (int k = 1; k <= REMBILUNG_NUMBERS; k++)
        go_right(&pair, k);
    go_wrong(&pair, field);
    case_begins("every field the right way, but field %d", field);
    if (can_go_wrong(field))
        pair_refused(&pair, 12, (uint32_t)field);
    else
        pair_stands(&pair);
}

/* Of either family, tube, enclosure and wall, as far apart as they can be. */
static void farthest(uint32_t family, uint32_t tube, uint32_t enclosure, uint32_t wall) {
    Pair pair;
    for (int k = 1; k <= REMBILUNG_NUMBERS; k++)
        set(&pair, k, fields[k - 1].mildest, fields[k - 1].way == ALIKE ? fields[k - 1].mildest : fields[k - 1].harshest);
    set(&pair, 1, family, family);
    set(&pair, 2, tube, tube);
    set(&pair, 17, enclosure, enclosure);
    set(&pair, 19, wall, wall);
    if (family == 2) {
        set(&pair, 20, THICK_ENOUGH, THICK_ENOUGH);
        set(&pair, 21, SOUND, SOUND);
    }
    case_begins("family %u, tube %u, enclosure %u, wall %u, every field as far the right way as it goes", (unsigned)family,
                (unsigned)tube, (unsigned)enclosure, (unsigned)wall);
    pair_stands(&pair);
}

static void all_fields(void) {
    for (int field = 1; field <= REMBILUNG_NUMBERS; field++)
        all_but(field);
    for (uint32_t which = 0; which < 2 * 2 * 3 * 2; which++)
        farthest(1 + which % 2, 1 + which / 2 % 2, 1 + which / 4 % 3, 1 + which / 12);
}

/* The soil factors in tenths: what the ground bears goes by them. */
static void soils(uint32_t mild, uint32_t harsh) {
    static const int tenths[] = {4, 4, 4, 5, 10};
    one_field(23, mild, harsh, tenths[harsh - 1] <= tenths[mild - 1]);
}

static void every_two_soils(void) {
    for (uint32_t mild = 1; mild <= 5; mild++)
        for (uint32_t harsh = 1; harsh <= 5; harsh++)
            soils(mild, harsh);
}

/* Wall thickness and make against one another, at the ends of their ranges; of a single row only the thickness is free. */
static void free_fields(void) {
    static const uint32_t thick[] = {0, 180, 181, 2000};
    for (int k = 0; k < 16; k++) {
        Pair pair = equal_pair();
        set(&pair, 20, thick[k % 4], thick[k / 4]);
        set(&pair, 21, 1 + (uint32_t)k % 3, 1 + (uint32_t)k / 4 % 3);
        case_begins("walls of %u and %u mm, makes %u and %u", (unsigned)pair.mild[19], (unsigned)pair.harsh[19],
                    (unsigned)pair.mild[20], (unsigned)pair.harsh[20]);
        pair_stands(&pair);
    }
    Pair pair = equal_pair();
    set(&pair, 1, 2, 2);
    set(&pair, 20, 181, 2000);
    case_begins("a single row, walls of 181 and 2000 mm");
    pair_stands(&pair);
    set(&pair, 20, 2000, 181);
    case_begins("a single row, walls of 2000 and 181 mm");
    pair_stands(&pair);
}

/* A field beyond every range, in the one end and in the other; in both, the mild end's is named, wherever it stands. */
static void beyond_range(int field) {
    Pair pair = equal_pair();
    pair.mild[field - 1] = UINT32_MAX;
    case_begins("field %d of the mild job at 4294967295", field);
    pair_refused(&pair, 3, (uint32_t)field);
    pair.harsh[REMBILUNG_NUMBERS - field] = UINT32_MAX;
    case_begins("field %d of the mild job and field %d of the harsh at 4294967295", field, REMBILUNG_NUMBERS + 1 - field);
    pair_refused(&pair, 3, (uint32_t)field);
    pair = equal_pair();
    pair.harsh[field - 1] = UINT32_MAX;
    case_begins("field %d of the harsh job at 4294967295", field);
    pair_refused(&pair, 3, REMBILUNG_NUMBERS + (uint32_t)field);
    pair.harsh[REMBILUNG_NUMBERS - 1] = UINT32_MAX;
    case_begins("fields %d and 25 of the harsh job at 4294967295", field);
    pair_refused(&pair, 3, REMBILUNG_NUMBERS + (uint32_t)field);
}

/* The faults of a call, a bit each, in the order in which they are tried. */
enum { LENGTH = 1, ENTRY = 2, MILD = 4, HARSH = 32, RANGE = 1, LAYERS = 2, WALL = 4, OF_END = 7, UNLIKE = 256, FAULTS = 512 };

static const uint32_t places[] = {[RANGE] = 25, [LAYERS] = 10, [WALL] = 20};
static const uint32_t refusals[] = {[RANGE] = 3, [LAYERS] = 4, [WALL] = 5};

/* A single row with faults of its own; its pad is never 0. */
static void put_end(uint32_t *numbers, int faults) {
    memcpy(numbers, single_job, sizeof single_job);
    if (faults & RANGE)
        numbers[24] = 0;
    if (faults & LAYERS)
        numbers[9] = 8;
    if (faults & WALL)
        numbers[19] = 180;
}

/* The refusal of an end's first fault, or none. */
static Answer end_due(int faults, uint32_t before) {
    int first = faults & RANGE ? RANGE : faults & LAYERS ? LAYERS : faults & WALL;
    return first == 0 ? refused(0, 0) : refused(refusals[first], places[first] + before);
}

/* The single row's report under sheet T has these verdicts and no height. */
static Answer first_due(int faults, size_t sheet_length) {
    if (faults & LENGTH)
        return refused(1, (uint32_t)sheet_length);
    if (faults & ENTRY)
        return refused(2, 3);
    Answer mild = end_due(faults / MILD & OF_END, 0), harsh = end_due(faults / HARSH & OF_END, REMBILUNG_NUMBERS);
    if (mild.refusal != 0 || harsh.refusal != 0)
        return mild.refusal != 0 ? mild : harsh;
    return faults & UNLIKE ? refused(12, 2) : outcomes("112121221222", REMBILUNG_NONE, REMBILUNG_NONE);
}

static void in_order(int faults) {
    Sheet sheet = sheet_t();
    Pair pair;
    size_t sheet_length = faults & LENGTH ? REMBILUNG_SHEET_BYTES - 1 : REMBILUNG_SHEET_BYTES;
    if (faults & ENTRY)
        set_entry(&sheet, 3, 0);
    put_end(pair.mild, faults / MILD & OF_END);
    put_end(pair.harsh, faults / HARSH & OF_END);
    if (faults & UNLIKE)
        pair.harsh[1] = 1;
    case_begins("between with faults %03x (hexadecimal): sheet length %d, entry %d, mild job %d, harsh job %d (1 range, 2 layers, "
                "4 wall), tubes unlike %d", faults, !!(faults & LENGTH), !!(faults & ENTRY), faults / MILD & OF_END,
                faults / HARSH & OF_END, !!(faults & UNLIKE));
    expect_between((Bytes){sheet.bytes, sheet_length}, pair.mild, pair.harsh, first_due(faults, sheet_length));
}

/* J with one field at two numbers, under sheet T. */
static void with_j(const char *what, int field, uint32_t mild, uint32_t harsh, Answer due) {
    Sheet t = sheet_t();
    Pair pair;
    memcpy(pair.mild, job_j, sizeof job_j);
    memcpy(pair.harsh, job_j, sizeof job_j);
    set(&pair, field, mild, harsh);
    case_begins("J, %s", what);
    expect_between(sheet_bytes(&t), pair.mild, pair.harsh, due);
}

/* By hand: J's pole force is 20,093 N, and its ground bears 0.5 x 200 kPa x 0.2 m2 = 20,000 N, with 201 kPa 20,100 N, and under
 * a soil of factor 0.4 16,000 N; it stands up to 3277 cm and is permitted 3173; above 350 N/m2 check 8 is due. */
static void by_hand(void) {
    with_j("at both ends", 24, 200, 200, outcomes("111111111121", 3277, 3277));
    with_j("ground between 201 and 200 kPa", 24, 201, 200, outcomes("111111111131", 3277, 3277));
    with_j("ground between 202 and 201 kPa", 24, 202, 201, outcomes("111111111111", 3277, 3277));
    with_j("ground between 200 and 201 kPa", 24, 200, 201, refused(12, 24));
    with_j("wind between 350 and 351 N/m2", 15, 350, 351, outcomes("111111111121", 3277, 3277));
    with_j("soils 1 and 3", 23, 1, 3, outcomes("111111111121", 3277, 3277));
    with_j("soils 3 and 1", 23, 3, 1, outcomes("111111111121", 3277, 3277));
    with_j("soils 5 and 4", 23, 5, 4, outcomes("111111111131", 3277, 3277));
    with_j("soils 1 and 4", 23, 1, 4, refused(12, 23));
    with_j("height between 31.73 and 31.74 m", 7, 3173, 3174, outcomes("111111111123", 3277, 3277));
    with_j("height between 32.77 and 32.78 m", 7, 3277, 3278, outcomes("111111311122", 3277, 3277));
    with_j("harsh height 0", 7, 3000, 0, refused(3, 32));
    with_j("harsh pad 99", 25, 2000, 99, refused(3, 50));
    with_j("harsh family 3", 1, 1, 3, refused(3, 26));
    with_j("mild family 3", 1, 3, 1, refused(3, 1));
    with_j("5 working layers on 4 boarded in the harsh job", 10, 2, 5, refused(4, 35));
    with_j("live load of 2999 summed in the harsh job", 12, 5000, 2999, refused(4, 37));
}

/* One buffer may be lent for both ends, since neither is written. */
static void one_buffer(void) {
    uint32_t answer[REMBILUNG_BETWEEN_NUMBERS];
    Sheet t = sheet_t();
    Answer due = outcomes_j();
    case_begins("J's numbers lent for both ends");
    result_is(rembilung_between(t.bytes, sizeof t.bytes, job_j, job_j, answer), due);
    if (memcmp(answer, due.written.at, sizeof answer) != 0)
        differs("the answer is not J's");
}

/* The names that the header has for parts of an answer. */
static void names(void) {
    case_begins("the header's numbers of an answer");
    if (REMBILUNG_CHECKS != 12 || REMBILUNG_BETWEEN_NUMBERS != 14 || REMBILUNG_NONE != UINT32_MAX ||
        REMBILUNG_BETWEEN_MILD_HEIGHT != 12 || REMBILUNG_BETWEEN_HARSH_HEIGHT != 13 || REMBILUNG_PASSES_THROUGHOUT != 1 ||
        REMBILUNG_FAILS_THROUGHOUT != 2 || REMBILUNG_UNDECIDED != 3)
        differs("they are not those of document 02");
}

void test_between(void) {
    names();
    by_hand();
    one_buffer();
    every_field();
    every_half_closed();
    every_two_fields();
    all_fields();
    every_two_soils();
    free_fields();
    for (int field = 1; field <= REMBILUNG_NUMBERS; field++)
        beyond_range(field);
    for (int faults = 0; faults < FAULTS; faults++)
        in_order(faults);
}
