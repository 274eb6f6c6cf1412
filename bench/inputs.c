/* Makes the inputs of the measurements: accepted jobs of both families, and refused ones by what is wrong with them. */
#include "inputs.h"

#include <string.h>

uint8_t good_sheets[GOOD_SHEETS][SHEET_ROOM];
Input inputs[CLASSES][PER_CLASS];
const Input *mix[MIX];

static uint64_t state = 0x9E3779B97F4A7C15u;

uint32_t from_to(uint32_t low, uint32_t high) {
    state ^= state << 13;
    state ^= state >> 7;
    state ^= state << 17;
    return low + (uint32_t)(state >> 16) % (high - low + 1);
}

size_t put_groups(uint32_t number, uint8_t *to) {
    size_t at = 0;
    for (; number >= 128; number /= 128)
        to[at++] = (uint8_t)(number % 128 + 128);
    to[at++] = (uint8_t)number;
    return at;
}

size_t pack(const uint32_t *numbers, uint8_t *file) {
    size_t at = 0;
    for (int k = 0; k < (numbers[0] == 3 ? REMBILUNG_SUPPORT_NUMBERS : REMBILUNG_NUMBERS); k++)
        at += put_groups(numbers[k], file + at);
    return at;
}

static void set_entry(uint8_t *sheet, int k, uint32_t thousandths) {
    sheet[2 * k] = (uint8_t)(thousandths % 256);
    sheet[2 * k + 1] = (uint8_t)(thousandths / 256);
}

/* Falls by 0 to 7 an entry while that leaves enough for the end. */
static void random_sheet(uint8_t *sheet) {
    uint32_t now = from_to(900, 1000);
    for (int k = 0; k < 251; k++) {
        set_entry(sheet, k, now);
        uint32_t fall = from_to(0, 7);
        now = now >= 117 + fall ? now - fall : now;
    }
}

static uint32_t random_shield(uint32_t enclosure) {
    if (enclosure == 1)
        return from_to(1, 2000);
    return from_to(1, enclosure == 2 ? 700 : 1000);
}

/* Loads as on real sites more often than at the ends of the ranges, so that verdicts of both kinds come. */
void random_job(uint32_t family, uint32_t *n) {
    static const uint32_t spacings[] = {105, 130, 155};
    n[REMBILUNG_FAMILY] = family;
    n[REMBILUNG_TUBE] = from_to(1, 2);
    n[REMBILUNG_SPACING] = family == 1 ? spacings[from_to(0, 2)] : from_to(60, 150);
    n[REMBILUNG_BAY] = from_to(60, 200);
    n[REMBILUNG_STEP] = from_to(60, 200);
    n[REMBILUNG_TIE_INTERVAL] = from_to(2, 3);
    n[REMBILUNG_HEIGHT] = from_to(1, family == 1 ? 5000 : 2400);
    n[REMBILUNG_BOARDS] = from_to(1, 3);
    n[REMBILUNG_BOARDED_LAYERS] = from_to(1, 10);
    n[REMBILUNG_WORKING_LAYERS] = from_to(1, n[REMBILUNG_BOARDED_LAYERS] < 9 ? n[REMBILUNG_BOARDED_LAYERS] : 9);
    n[REMBILUNG_LIVE_ONE_LAYER] = from_to(0, from_to(0, 3) == 0 ? 10000 : 3500);
    n[REMBILUNG_LIVE_ALL_LAYERS] = n[REMBILUNG_LIVE_ONE_LAYER] + from_to(0, from_to(0, 3) == 0 ? 20000 : 5000);
    n[REMBILUNG_NETS] = from_to(0, from_to(0, 1) == 0 ? 5000 : 300);
    n[REMBILUNG_STRUCTURE] = from_to(50, 500);
    n[REMBILUNG_BASIC_WIND] = from_to(0, from_to(0, 3) == 0 ? 2000 : 600);
    n[REMBILUNG_HEIGHT_FACTOR] = from_to(100, from_to(0, 3) == 0 ? 4000 : 1500);
    n[REMBILUNG_ENCLOSURE] = from_to(1, 3);
    n[REMBILUNG_SHIELD] = random_shield(n[REMBILUNG_ENCLOSURE]);
    n[REMBILUNG_WALL_BEHIND] = from_to(1, 2);
    n[REMBILUNG_WALL_THICKNESS] = family == 1 ? from_to(0, 2000) : from_to(181, 2000);
    n[REMBILUNG_WALL_MAKE] = family == 1 ? from_to(1, 3) : 1;
    n[REMBILUNG_TIE_CAPACITY] = from_to(8000, from_to(0, 1) == 0 ? 100000 : 16000);
    n[REMBILUNG_SOIL] = from_to(1, 5);
    n[REMBILUNG_GROUND_STRENGTH] = from_to(10, from_to(0, 1) == 0 ? 2000 : 400);
    n[REMBILUNG_PAD_AREA] = from_to(100, 10000);
}

/* An accepted call of a family. */
static void accepted(Input *to, uint32_t family) {
    random_job(family, to->numbers);
    to->sheet = good_sheets[from_to(0, GOOD_SHEETS - 1)];
    to->sheet_len = REMBILUNG_SHEET_BYTES;
    to->file_len = pack(to->numbers, to->file);
    to->report_len = REMBILUNG_REPORT_MOST;
}

static void accepted_double(Input *to) {
    accepted(to, 1);
}

static void accepted_single(Input *to) {
    accepted(to, 2);
}

/* An accepted call of either family, double rows twice as often, to be spoiled. */
static void accepted_any(Input *to) {
    accepted(to, from_to(0, 2) == 0 ? 2 : 1);
}

static void sheet_length(Input *to) {
    accepted_any(to);
    to->sheet_len = from_to(0, 1) == 0 ? from_to(0, 501) : from_to(503, SHEET_ROOM);
}

/* A sheet that breaks off falling, or stands at 0, at entry k. */
static void spoil_entry(Input *to, int k) {
    accepted_any(to);
    memcpy(to->own_sheet, to->sheet, SHEET_ROOM);
    to->sheet = to->own_sheet;
    set_entry(to->own_sheet, k, from_to(0, 1) == 0 ? 0 : from_to(1001, 65535));
}

static void entry_early(Input *to) {
    spoil_entry(to, (int)from_to(0, 24));
}

static void entry_late(Input *to) {
    spoil_entry(to, (int)from_to(226, 250));
}

/* A file cut off, or with a number that is not in its shortest form or too great. */
static void file_damaged(Input *to) {
    accepted_any(to);
    size_t at = from_to(0, (uint32_t)to->file_len - 1);
    uint32_t kind = from_to(0, 2);
    if (kind == 0) {
        to->file_len = at;
        return;
    }
    while (at > 0 && to->file[at - 1] >= 128)
        at--;
    to->file[at] = 0x80;
    to->file[at + 1] = 0;
    if (kind == 2)
        memset(to->file + at, 0xFF, 5);
    to->file_len = to->file_len < at + 5 ? at + 5 : to->file_len;
}

static void file_longer(Input *to) {
    accepted_any(to);
    size_t more = from_to(1, 20);
    memset(to->file + to->file_len, 1, more);
    to->file_len += more;
}

static void out_of_range(Input *to) {
    accepted_any(to);
    to->numbers[from_to(0, REMBILUNG_NUMBERS - 1)] = from_to(100001, 4000000000u);
    to->file_len = pack(to->numbers, to->file);
}

static void contradiction(Input *to) {
    accepted_any(to);
    if (from_to(0, 1) == 0) {
        to->numbers[REMBILUNG_BOARDED_LAYERS] = from_to(1, 8);
        to->numbers[REMBILUNG_WORKING_LAYERS] = 9;
    } else {
        to->numbers[REMBILUNG_LIVE_ONE_LAYER] = from_to(5001, 10000);
        to->numbers[REMBILUNG_LIVE_ALL_LAYERS] = from_to(0, 5000);
    }
    to->file_len = pack(to->numbers, to->file);
}

static void wall(Input *to) {
    accepted(to, 2);
    if (from_to(0, 1) == 0)
        to->numbers[REMBILUNG_WALL_THICKNESS] = from_to(0, 180);
    else
        to->numbers[REMBILUNG_WALL_MAKE] = from_to(2, 3);
    to->file_len = pack(to->numbers, to->file);
}

/* No report is shorter than 100 bytes. */
static void short_buffer(Input *to) {
    accepted_any(to);
    to->report_len = from_to(0, 99);
}

const Class classes[CLASSES] = {
    {"accepted, double row", 500, accepted_double},  {"accepted, single row", 250, accepted_single},
    {"1 sheet length", 10, sheet_length},            {"2 sheet entry 0 to 24", 20, entry_early},
    {"2 sheet entry 226 to 250", 20, entry_late},    {"6 file damaged", 60, file_damaged},
    {"7 file too long", 20, file_longer},            {"3 number out of range", 60, out_of_range},
    {"4 contradiction", 20, contradiction},          {"5 wall of a single row", 20, wall},
    {"8 report buffer too short", 20, short_buffer},
};

/* The mix takes each class by its share and is then shuffled, so that no branch can be foreseen by the order. */
static void make_mix(void) {
    int count = 0;
    for (int c = 0; c < CLASSES; c++)
        for (int k = 0; k < classes[c].share; k++)
            mix[count++] = &inputs[c][k % PER_CLASS];
    for (int k = MIX - 1; k > 0; k--) {
        uint32_t other = from_to(0, (uint32_t)k);
        const Input *kept = mix[k];
        mix[k] = mix[other];
        mix[other] = kept;
    }
}

void make_inputs(void) {
    for (int k = 0; k < GOOD_SHEETS; k++)
        random_sheet(good_sheets[k]);
    for (int c = 0; c < CLASSES; c++)
        for (int k = 0; k < PER_CLASS; k++)
            classes[c].make(&inputs[c][k]);
    make_mix();
}
