/* What a load cell's record may be and counts as: every kind, zero byte and class of newtons, and which record is named. */
#include <string.h>

#include "check.h"
#include "parts.h"
#include "records.h"

/* Newtons of a push, worked out by hand: what they count as, up to a whole newton. */
typedef struct {
    const char *what;
    uint32_t bits, counts;
} Known;

static const Known known[] = {
    {"0", 0x00000000, 0},
    {"minus 0", 0x80000000, 0},
    {"the least above 0", 0x00000001, 1},
    {"twice the least", 0x00000002, 1},
    {"the greatest of fewer digits", 0x007FFFFF, 1},
    {"the least of all digits", 0x00800000, 1},
    {"1/128", 0x3C000000, 1},
    {"0.5", 0x3F000000, 1},
    {"the one before 1", 0x3F7FFFFF, 1},
    {"1", 0x3F800000, 1},
    {"the one after 1", 0x3F800001, 2},
    {"1.5", 0x3FC00000, 2},
    {"the one before 2", 0x3FFFFFFF, 2},
    {"2", 0x40000000, 2},
    {"the one after 2", 0x40000001, 3},
    {"3.25", 0x40500000, 4},
    {"255.5", 0x437F8000, 256},
    {"256", 0x43800000, 256},
    {"the one after 256", 0x43800001, 257},
    {"65535.5", 0x477FFF80, 65536},
    {"65536", 0x47800000, 65536},
    {"65536 and 1/128", 0x47800001, 65537},
    {"99998 and 127/128", 0x47C34F7F, 99999},
    {"99999", 0x47C34F80, 99999},
    {"99999 and 1/128", 0x47C34F81, 100000},
    {"99999.99, which is 99999 and 127/128", 0x47C34FFF, 100000},
    {"100000", 0x47C35000, 100000},
};

/* Newtons that no record may have. */
static const Known bad[] = {
    {"100000 and 1/128", 0x47C35001, 0},
    {"100001", 0x47C35080, 0},
    {"131072", 0x48000000, 0},
    {"2 to the 32nd, whose low 32 bits are 0", 0x4F800000, 0},
    {"2 to the 32nd and 512", 0x4F800001, 0},
    {"the greatest number", 0x7F7FFFFF, 0},
    {"infinity", 0x7F800000, 0},
    {"no number, the first", 0x7F800001, 0},
    {"no number, quiet", 0x7FC00000, 0},
    {"no number, the last", 0x7FFFFFFF, 0},
    {"minus the least above 0", 0x80000001, 0},
    {"minus the greatest of fewer digits", 0x807FFFFF, 0},
    {"minus the least of all digits", 0x80800000, 0},
    {"minus 0.5", 0xBF000000, 0},
    {"minus 1", 0xBF800000, 0},
    {"minus 100000", 0xC7C35000, 0},
    {"minus infinity", 0xFF800000, 0},
    {"no number, quiet, with a sign", 0xFFC00000, 0},
    {"no number, the last with a sign", 0xFFFFFFFF, 0},
};

static Run run;

static void run_is(uint32_t w, Answer due) {
    expect_cells(run_bytes(&run), w, 4 * run.count, due);
}

/* As the last record but one, after a push of 7 N and before silence. */
static void put_between(uint8_t kind, uint32_t bits) {
    run.count = 0;
    set_record(&run, 0, PUSH, bits_of(7));
    set_record(&run, 1, kind, bits);
    set_record(&run, 2, SILENT, 0);
}

static void known_newtons(const Known *one) {
    uint32_t counted[] = {7, one->counts, 0}, pulled[] = {7, 0, 0};
    case_begins("a push of %s newtons", one->what);
    put_between(PUSH, one->bits);
    run_is(1, pushes(counted, 3));
    case_begins("a pull of %s newtons", one->what);
    put_between(PULL, one->bits);
    run_is(1, pushes(pulled, 3));
    case_begins("silence with the bits of %s newtons", one->what);
    put_between(SILENT, one->bits);
    run_is(1, one->bits == 0 ? pushes(pulled, 3) : refused(14, 1));
    case_begins("what is due of %s newtons", one->what);
    if (!newtons_stand(one->bits) || whole_newtons(one->bits) != one->counts)
        differs("the tests work out %u", (unsigned)whole_newtons(one->bits));
}

static void bad_newtons(const Known *one) {
    for (uint8_t kind = PUSH; kind <= SILENT; kind++) {
        case_begins("kind %d with %s newtons", kind, one->what);
        put_between(kind, one->bits);
        run_is(1, refused(14, 1));
    }
    case_begins("what is due of %s newtons", one->what);
    if (newtons_stand(one->bits))
        differs("the tests let them stand");
}

static void both_by_what_is_due(uint32_t bits) {
    for (uint8_t kind = PUSH; kind <= SILENT; kind++) {
        put_between(kind, bits);
        case_begins("kind %d with newtons of the bits %08x (hexadecimal)", kind, (unsigned)bits);
        run_is(1, greatest_pushes(run_bytes(&run), 1, 12));
    }
}

/* Every power of two of either sign, with digits at the ends, in the middle and one bit at a time. */
static void every_power(void) {
    for (uint32_t power = 0; power < 512; power++) {
        both_by_what_is_due(power << 23);
        both_by_what_is_due(power << 23 | 0x7FFFFF);
        both_by_what_is_due(power << 23 | 0x555555);
        for (int bit = 0; bit < 23; bit += power % 8 == 0 ? 1 : 11)
            both_by_what_is_due(power << 23 | UINT32_C(1) << bit);
    }
}

/* A long run of w 1, so that every record shows what it counts as. */
static void long_run_is(const char *what, uint32_t from) {
    case_begins("pushes of %s, from %u on", what, (unsigned)from);
    run_is(1, greatest_pushes(run_bytes(&run), 1, 4 * run.count));
}

/* Every whole number of newtons with the values before and after it. */
static void every_whole_number(void) {
    for (uint32_t from = 1; from <= 100000; from += RECORDS_MOST / 2) {
        run.count = 0;
        for (uint32_t k = 0; k < RECORDS_MOST / 2 && from + k <= 100000; k++) {
            set_record(&run, 2 * k, PUSH, bits_of(from + k) - 1);
            set_record(&run, 2 * k + 1, PUSH, bits_of(from + k) + (from + k < 100000));
        }
        long_run_is("the values before and after every whole number", from);
        run.count = 0;
        for (uint32_t k = 0; k < RECORDS_MOST / 2 && from + k <= 100000; k++)
            set_record(&run, k, PUSH, bits_of(from + k));
        long_run_is("every whole number", from);
    }
}

/* Values far apart, of every power and of all digits by turns. */
static void values_far_apart(void) {
    for (uint32_t from = 0; from < 8; from++) {
        run.count = 0;
        for (uint32_t k = 0; k < RECORDS_MOST; k++)
            set_record(&run, k, PUSH, (uint32_t)((uint64_t)(NEWTONS_MOST) * (8 * k + from) / (8 * RECORDS_MOST)));
        long_run_is("values spread over all that stand", from);
    }
}

static void every_kind(void) {
    for (int kind = 0; kind < 256; kind++) {
        uint32_t nothing[] = {7, 0, 0};
        case_begins("kind %d without newtons", kind);
        put_between((uint8_t)kind, 0);
        run_is(1, kind >= PUSH && kind <= SILENT ? pushes(nothing, 3) : refused(14, 1));
    }
}

/* Three bytes after the kind, and the newtons of silence: each of them at each value but zero, alone and with the others. */
static void byte_set(uint8_t kind, int at, int value) {
    put_between(kind, 0);
    case_begins("kind %d with byte %d at %02x (hexadecimal)", kind, at, value);
    run.bytes[RECORD_BYTES + at] = (uint8_t)value;
    run_is(1, refused(14, 1));
}

static void every_zero_byte(void) {
    for (int value = 1; value < 256; value++) {
        for (int at = 1; at < 4; at++)
            for (uint8_t kind = PUSH; kind <= SILENT; kind++)
                byte_set(kind, at, value);
        for (int at = 4; at < RECORD_BYTES; at++)
            byte_set(SILENT, at, value);
    }
    for (uint8_t kind = PUSH; kind <= SILENT; kind++) {
        put_between(kind, 0);
        memset(run.bytes + RECORD_BYTES + 1, 0x80, 3);
        case_begins("kind %d with all its zero bytes at 80 (hexadecimal)", kind);
        run_is(1, refused(14, 1));
    }
}

/* The ways in which a record can be wrong. */
enum { WRONG_KIND, WRONG_ZERO, WRONG_NEWTONS, WRONG_SILENCE, WRONG_WAYS };

static void spoil(size_t place, int way) {
    uint8_t *record = run.bytes + RECORD_BYTES * place;
    if (way == WRONG_KIND)
        record[0] = 4;
    else if (way == WRONG_ZERO)
        record[2] = 1;
    else
        set_record(&run, place, way == WRONG_NEWTONS ? PULL : SILENT, way == WRONG_NEWTONS ? NEWTONS_ABOVE : NEWTONS_LEAST);
}

static void good_run(size_t count) {
    run.count = 0;
    for (size_t k = 0; k < count; k++)
        set_record(&run, k, (uint8_t)(PUSH + k % 3), k % 3 == SILENT - PUSH ? 0 : bits_of((uint32_t)k % 1000));
}

static void named(size_t count, size_t place, uint32_t w) {
    run_is(w, refused(14, (uint32_t)place));
    expect_cells(run_bytes(&run), w, 0, refused(14, (uint32_t)place));
    expect_cells(run_bytes(&run), w, 4 * count + BEYOND, refused(14, (uint32_t)place));
}

/* Of two the first is named, whatever is wrong with either. */
static void first_of_two(size_t count, size_t first, int way, size_t second, int other) {
    good_run(count);
    spoil(second, other);
    spoil(first, way);
    case_begins("%zu records, record %zu wrong in way %d, record %zu in way %d (0 kind, 1 zero byte, 2 newtons, 3 silence)",
                count, first, way, second, other);
    named(count, first, 3);
}

static void every_two_wrong(void) {
    enum { FEW = 9 };
    for (size_t first = 0; first < FEW; first++)
        for (size_t second = first; second < FEW; second++)
            for (int ways = 0; ways < WRONG_WAYS * WRONG_WAYS; ways++)
                first_of_two(FEW, first, ways % WRONG_WAYS, second, ways / WRONG_WAYS);
}

static void wrong_in_long_runs(void) {
    static const size_t places[] = {0, 1, 255, 256, 499, 500, 501, 3999, 4095, 4096, 7998, 7999};
    for (size_t k = 0; k < sizeof places / sizeof *places; k++)
        for (int way = 0; way < WRONG_WAYS; way++)
            first_of_two(RECORDS_MOST, places[k], way, RECORDS_MOST - 1, WRONG_KIND);
}

void test_cell_values(void) {
    for (size_t k = 0; k < sizeof known / sizeof *known; k++)
        known_newtons(&known[k]);
    for (size_t k = 0; k < sizeof bad / sizeof *bad; k++)
        bad_newtons(&bad[k]);
    every_power();
    every_whole_number();
    values_far_apart();
    every_kind();
    every_zero_byte();
    every_two_wrong();
    wrong_in_long_runs();
}
