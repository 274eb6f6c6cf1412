/* Load cells: records and outputs of every length, every w, the greatest push of every stretch, and which refusal goes first. */
#include <string.h>

#include "check.h"
#include "parts.h"
#include "records.h"

static Run run;

/* Room for just what is due, one byte less and some more. */
static void in_rooms(uint32_t w, Answer due) {
    size_t length = due.refusal == 0 ? due.place : 4 * run.count;
    expect_cells(run_bytes(&run), w, length, due);
    expect_cells(run_bytes(&run), w, length + BEYOND, due);
    if (length > 0)
        expect_cells(run_bytes(&run), w, length - 1, due_in(due, length - 1));
}

static void by_what_is_due(uint32_t w) {
    in_rooms(w, greatest_pushes(run_bytes(&run), w, OUTPUT_LENT_MOST));
}

/* A push, a pull, silence, and pushes again, with what is due for each w, by hand. */
static void by_hand(void) {
    static const uint32_t due[][8] = {
        {5, 0, 0, 4, 1, 0, 7, 1}, {5, 5, 0, 4, 4, 1, 7, 7}, {5, 5, 5, 4, 4, 4, 7, 7}, {5, 5, 5, 5, 4, 4, 7, 7},
        {5, 5, 5, 5, 5, 4, 7, 7}, {5, 5, 5, 5, 5, 5, 7, 7}, {5, 5, 5, 5, 5, 5, 7, 7},
    };
    run.count = 0;
    set_record(&run, 0, PUSH, bits_of(5));
    set_record(&run, 1, PULL, bits_of(90));
    set_record(&run, 2, SILENT, 0);
    set_record(&run, 3, PUSH, UINT32_C(0x40500000)); /* 3.25 */
    set_record(&run, 4, PUSH, UINT32_C(0x3F000000)); /* 0.5 */
    set_record(&run, 5, PUSH, UINT32_C(0x80000000)); /* minus 0 */
    set_record(&run, 6, PUSH, bits_of(7));
    set_record(&run, 7, PUSH, NEWTONS_LEAST);
    for (uint32_t w = 1; w <= sizeof due / sizeof *due; w++) {
        case_begins("eight records, w %u", (unsigned)w);
        in_rooms(w, pushes(due[w - 1], 8));
    }
    case_begins("eight records, w 500");
    in_rooms(500, pushes(due[6], 8));
}

/* Numbers in no order, the same at every run of the tests. */
static uint32_t any_number(void) {
    static uint32_t state = 1;
    state = state * 1664525u + 1013904223u;
    return state >> 8;
}

/* Records in no order: mostly pushes, up to so many newtons. */
static void any_run(size_t count, uint32_t most) {
    run.count = 0;
    for (size_t k = 0; k < count; k++) {
        uint32_t kind = any_number() % 8;
        uint32_t bits = bits_of(any_number() % (most + 1));
        set_record(&run, k, kind == 0 ? SILENT : kind == 1 ? PULL : PUSH, kind == 0 ? 0 : bits);
    }
}

/* Cut from a run that stands, or with bytes behind it: whole records are answered, at most 8,000 of them. */
static void of_length(size_t length, uint32_t w) {
    Bytes records = {run.bytes, length};
    case_begins("%zu bytes of records, w %u", length, (unsigned)w);
    expect_cells(records, w, OUTPUT_LENT_MOST, greatest_pushes(records, w, OUTPUT_LENT_MOST));
    expect_cells(records, w, 0, greatest_pushes(records, w, 0));
}

static void every_length(void) {
    any_run(RECORDS_MOST + 2, 100000);
    for (size_t length = 0; length <= 20 * RECORD_BYTES + 1; length++)
        of_length(length, 3);
    for (size_t length = 63985; length <= 64016; length++)
        of_length(length, 1);
    of_length(4095, 2);
    of_length(4096, 2);
}

static void in_every_room(size_t count) {
    any_run(count, 100000);
    for (size_t room = 0; room <= 4 * count + BEYOND; room++) {
        case_begins("%zu records, output of %zu bytes", count, room);
        expect_cells(run_bytes(&run), 2, room, greatest_pushes(run_bytes(&run), 2, room));
    }
}

static void every_room(void) {
    for (size_t count = 0; count <= 24; count++)
        in_every_room(count);
    any_run(RECORDS_MOST, 100000);
    for (size_t room = 31990; room <= 32000 + BEYOND; room++) {
        case_begins("8000 records, output of %zu bytes", room);
        expect_cells(run_bytes(&run), 1, room, greatest_pushes(run_bytes(&run), 1, room));
    }
}

/* Of the w outside, some have low bits that are within. */
static void every_w(void) {
    static const uint32_t outside[] = {0, 501, 502, 511, 512, 513, 1000, 65535, 65536, 65537, 66036, 2147483648u, 2147483649u,
                                       4294967294u, 4294967295u};
    for (uint32_t w = 1; w <= W_MOST; w++) {
        case_begins("a run of 600 records, w %u", (unsigned)w);
        any_run(600, 100000);
        by_what_is_due(w);
    }
    for (size_t k = 0; k < sizeof outside / sizeof *outside; k++) {
        case_begins("w %u", (unsigned)outside[k]);
        any_run(3, 100000);
        in_rooms(outside[k], refused(13, outside[k]));
        expect_cells(run_bytes(&run), outside[k], 0, refused(13, outside[k]));
        run.count = 0;
        expect_cells(run_bytes(&run), outside[k], 0, refused(13, outside[k]));
    }
}

/* Every run of five records, each 0, 1 or 2 N or a pull, whose numbers in base four are the run's. */
static void every_small_run(void) {
    enum { FEW = 5, RUNS = 4 * 4 * 4 * 4 * 4 };
    for (uint32_t which = 0; which < RUNS; which++) {
        run.count = 0;
        for (uint32_t k = 0, rest = which; k < FEW; k++, rest /= 4)
            set_record(&run, k, rest % 4 == 3 ? PULL : PUSH, bits_of(rest % 4));
        for (uint32_t w = 1; w <= FEW + 1; w++) {
            case_begins("run %u of five records, w %u", (unsigned)which, (unsigned)w);
            expect_cells(run_bytes(&run), w, 4 * FEW, greatest_pushes(run_bytes(&run), w, 4 * FEW));
        }
    }
}

/* How newtons go from record to record. */
typedef enum { RISING, FALLING, LEVEL, TOOTHED, HILL, VALLEY, SPIKES, ANY, WAYS_TO_GO } Way;

static uint32_t newtons_going(Way way, uint32_t k, uint32_t count, uint32_t w) {
    uint32_t middle = count / 2, from_middle = k < middle ? middle - k : k - middle;
    switch (way) {
    case RISING: return k;
    case FALLING: return count - k;
    case LEVEL: return 9;
    case TOOTHED: return k % 2 == 0 ? 10 + k : 5;
    case HILL: return count - from_middle;
    case VALLEY: return from_middle;
    case SPIKES: return k % (w + 1) == 0 ? 1000 : 0;
    default: return any_number() % 1000;
    }
}

static void going(Way way, uint32_t count, uint32_t w) {
    run.count = 0;
    for (uint32_t k = 0; k < count; k++)
        set_record(&run, k, PUSH, bits_of(newtons_going(way, k, count, w)));
    case_begins("%u records that go in way %d, w %u", (unsigned)count, (int)way, (unsigned)w);
    in_rooms(w, greatest_pushes(run_bytes(&run), w, OUTPUT_LENT_MOST));
}

/* Runs that end just before, at and after whole stretches. */
static void every_way(void) {
    static const uint32_t widths[] = {1, 2, 3, 4, 7, 8, 9, 16, 31, 32, 33, 64, 100, 127, 128, 129, 255, 256, 257, 498, 499, 500};
    for (size_t k = 0; k < sizeof widths / sizeof *widths; k++)
        for (Way way = RISING; way < WAYS_TO_GO; way++) {
            uint32_t w = widths[k];
            going(way, w, w);
            going(way, w + 1, w);
            going(way, 2 * w - 1, w);
            going(way, 2 * w + 1, w);
        }
}

/* One push of 100,000 N is the greatest of w records from its own on, and of no other. */
static void one_push(size_t count, size_t place, uint32_t w) {
    static uint32_t due[RECORDS_MOST];
    run.count = 0;
    for (size_t k = 0; k < count; k++) {
        set_record(&run, k, k == place ? PUSH : (uint8_t)(PULL + k % 2), k == place || k % 2 == 0 ? NEWTONS_MOST : 0);
        due[k] = k >= place && k - place < w ? 100000 : 0;
    }
    case_begins("%zu records, a push at record %zu alone, w %u", count, place, (unsigned)w);
    in_rooms(w, pushes(due, count));
}

static void one_push_anywhere(void) {
    for (size_t place = 0; place < 12; place++)
        for (uint32_t w = 1; w <= 13; w++)
            one_push(12, place, w);
    for (uint32_t w = 499; w <= 500; w++) {
        one_push(1000, 0, w);
        one_push(1000, 499, w);
        one_push(1000, 500, w);
        one_push(1000, 501, w);
        one_push(1000, 999, w);
        one_push(RECORDS_MOST, 0, w);
        one_push(RECORDS_MOST, 7499, w);
        one_push(RECORDS_MOST, 7500, w);
        one_push(RECORDS_MOST, 7501, w);
        one_push(RECORDS_MOST, 7999, w);
    }
}

static void longest_runs(void) {
    static const uint32_t widths[] = {1, 2, 3, 63, 64, 65, 499, 500};
    for (size_t k = 0; k < sizeof widths / sizeof *widths; k++) {
        any_run(RECORDS_MOST, k % 2 == 0 ? 100000 : 3);
        case_begins("8000 records in no order, w %u", (unsigned)widths[k]);
        by_what_is_due(widths[k]);
    }
    going(FALLING, RECORDS_MOST, 500);
    going(RISING, RECORDS_MOST, 500);
    going(LEVEL, RECORDS_MOST, 500);
}

/* The faults of a call, a bit each, in the order in which they are tried. */
enum { BAD_W = 1, BAD_LENGTH = 2, BAD_RECORD = 4, SHORT = 8, FAULTS = 16 };

/* Each fault in one of two ways. */
typedef struct {
    int faults, ways;
    uint32_t w;
    size_t count, length, room;
} Faulty;

static int second_way(const Faulty *call, int fault) {
    return (call->ways & fault) != 0;
}

/* Too many records, or bytes after the last; a bad record is the second. */
static void put_faulty(Faulty *call) {
    int many = (call->faults & BAD_LENGTH) && second_way(call, BAD_LENGTH);
    call->count = many ? RECORDS_MOST + 1 : 4;
    call->w = !(call->faults & BAD_W) ? 2 : second_way(call, BAD_W) ? 501 : 0;
    run.count = 0;
    for (size_t k = 0; k < call->count; k++)
        set_record(&run, k, PUSH, bits_of((uint32_t)k % 10));
    if (call->faults & BAD_RECORD)
        set_record(&run, 1, second_way(call, BAD_RECORD) ? 0 : PUSH, NEWTONS_ABOVE);
    call->length = RECORD_BYTES * call->count + ((call->faults & BAD_LENGTH) && !many ? 5 : 0);
    call->room = call->faults & SHORT ? second_way(call, SHORT) ? 0 : 4 * call->count - 1 : 4 * call->count;
}

static Answer first_due(const Faulty *call) {
    static const uint32_t numbers[] = {0, 1, 2, 3};
    if (call->faults & BAD_W)
        return refused(13, call->w);
    if (call->faults & BAD_LENGTH)
        return refused(15, (uint32_t)call->length);
    if (call->faults & BAD_RECORD)
        return refused(14, 1);
    return call->faults & SHORT ? refused(8, (uint32_t)(4 * call->count)) : pushes(numbers, 4);
}

static void in_order(int faults, int ways) {
    Faulty call = {faults, ways, 0, 0, 0, 0};
    put_faulty(&call);
    case_begins("cells with faults %x in ways %x (hexadecimal): w %u, %zu bytes, record 1 bad %d, output of %zu bytes", faults,
                ways, (unsigned)call.w, call.length, !!(faults & BAD_RECORD), call.room);
    expect_cells((Bytes){run.bytes, call.length}, call.w, call.room, first_due(&call));
}

/* What stands in a record that is not whole, or after the 8,000th, is not looked at before its length is. */
static void beyond_the_last(void) {
    any_run(4, 100000);
    set_record(&run, 3, 9, 0);
    case_begins("a bad record that is not whole");
    expect_cells((Bytes){run.bytes, 31}, 1, 16, refused(15, 31));
    any_run(RECORDS_MOST, 100000);
    set_record(&run, RECORDS_MOST, 9, 0);
    case_begins("a bad record after the 8000th");
    expect_cells(run_bytes(&run), 1, 32004, refused(15, 64008));
    case_begins("a bad record behind the records that are lent");
    in_rooms(1, refused(15, 64008));
    expect_cells((Bytes){run.bytes, 64000}, 1, 32000, greatest_pushes((Bytes){run.bytes, 64000}, 1, 32000));
}

static void names(void) {
    case_begins("the header's numbers of load cells");
    if (REMBILUNG_CELL_RECORD != 8 || REMBILUNG_CELL_RECORDS_MOST != 8000 || REMBILUNG_CELL_W_MOST != 500 ||
        REMBILUNG_CELL_OUTPUT_MOST != 32000 || REMBILUNG_CELL_PUSH != 1 || REMBILUNG_CELL_PULL != 2 ||
        REMBILUNG_CELL_SILENT != 3)
        differs("they are not those of document 02");
}

void test_cells(void) {
    names();
    by_hand();
    every_length();
    every_room();
    every_w();
    every_small_run();
    every_way();
    one_push_anywhere();
    longest_runs();
    for (int faults = 0; faults < FAULTS; faults++)
        for (int ways = 0; ways < FAULTS; ways++)
            in_order(faults, ways);
    beyond_the_last();
}
