/* Makes the inputs of the measurements on a mild and a harsh job. */
#include "pairs.h"

#include <string.h>

PairInput pairs[PAIR_CLASSES][PAIRS];

/* Numbers that may grow, and that may fall, whatever the others are, and how far. */
typedef struct {
    int number;
    uint32_t end;
} Step;

static const Step harsher[] = {
    {REMBILUNG_BAY, 200},        {REMBILUNG_STEP, 200},          {REMBILUNG_LIVE_ALL_LAYERS, 30000},
    {REMBILUNG_NETS, 5000},      {REMBILUNG_STRUCTURE, 500},     {REMBILUNG_BASIC_WIND, 2000},
    {REMBILUNG_HEIGHT_FACTOR, 4000}, {REMBILUNG_TIE_CAPACITY, 8000}, {REMBILUNG_GROUND_STRENGTH, 10},
    {REMBILUNG_PAD_AREA, 100},
};

static void take_step(const Step *step, uint32_t *harsh) {
    uint32_t *number = &harsh[step->number];
    *number = *number < step->end ? from_to(*number, step->end) : from_to(step->end, *number);
}

/* Where what is open is the wind, the ground, or both; the places in the table. */
enum { WIND = 5, GROUND = 8 };

void make_harsh(const uint32_t *mild, uint32_t *harsh) {
    uint32_t kind = from_to(0, 5);
    memcpy(harsh, mild, REMBILUNG_NUMBERS * sizeof *harsh);
    if (kind <= 2)
        take_step(&harsher[GROUND], harsh);
    if (kind == 2 || kind == 3)
        take_step(&harsher[WIND], harsh);
    for (size_t k = 0; kind == 4 && k < sizeof harsher / sizeof harsher[0]; k++)
        if (from_to(0, 1) == 0)
            take_step(&harsher[k], harsh);
}

static void as_it_is(PairInput *to) {
    (void)to;
}

static void mild_out_of_range(PairInput *to) {
    to->mild[from_to(0, REMBILUNG_NUMBERS - 1)] = from_to(100001, 4000000000u);
}

static void harsh_out_of_range(PairInput *to) {
    to->harsh[from_to(0, REMBILUNG_NUMBERS - 1)] = from_to(100001, 4000000000u);
}

/* Unlike in tube, or the wrong way in bay or ground. */
static void unordered(PairInput *to) {
    uint32_t kind = from_to(0, 2);
    if (kind == 0)
        to->harsh[REMBILUNG_TUBE] = 3 - to->mild[REMBILUNG_TUBE];
    if (kind == 1) {
        to->mild[REMBILUNG_BAY] = from_to(61, 200);
        to->harsh[REMBILUNG_BAY] = from_to(60, to->mild[REMBILUNG_BAY] - 1);
    }
    if (kind == 2) {
        to->mild[REMBILUNG_GROUND_STRENGTH] = from_to(10, 1999);
        to->harsh[REMBILUNG_GROUND_STRENGTH] = from_to(to->mild[REMBILUNG_GROUND_STRENGTH] + 1, 2000);
    }
}

const PairClass pair_classes[PAIR_CLASSES] = {
    {"accepted", as_it_is},
    {"3 number of the mild job out of range", mild_out_of_range},
    {"3 number of the harsh job out of range", harsh_out_of_range},
    {"12 unlike or the wrong way", unordered},
};

/* Double rows twice as often as single ones. */
static void make_pair(const PairClass *class, PairInput *to) {
    random_job(from_to(0, 2) == 0 ? 2 : 1, to->mild);
    make_harsh(to->mild, to->harsh);
    class->spoil(to);
    to->sheet = good_sheets[from_to(0, GOOD_SHEETS - 1)];
    to->sheet_len = REMBILUNG_SHEET_BYTES;
    to->mild_len = pack(to->mild, to->mild_file);
    to->harsh_len = pack(to->harsh, to->harsh_file);
}

void make_pairs(void) {
    for (int class = 0; class < PAIR_CLASSES; class++)
        for (int k = 0; k < PAIRS; k++)
            make_pair(&pair_classes[class], &pairs[class][k]);
}
