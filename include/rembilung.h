/* The C interface of Rembilung: a scaffold job or a formwork support judged by section 5 of JGJ 130-2001, all scaffold
 * jobs between two of them judged at once, job files and season's books written and read, load cells' records worked out.
 *
 * What it does. A scaffold job is 25 whole numbers that describe one facade scaffold of tube and couplers; a formwork
 * support is 13, of which the first is 3. A job file is a job of either kind packed into bytes: each number in groups of
 * seven bits, low group first, top bit set on every byte but its last. The column sheet is the table of stability
 * factors, 502 bytes. From a sheet and a job file, rembilung_verdict writes a report: twelve checks with verdict and
 * figure, two heights (of a scaffold), wind and slenderness.
 *
 *     uint32_t numbers[REMBILUNG_NUMBERS] = { 1, 1, 105, 150, 180, 2, 3000, 3, 4, 2, 3000, 5000, 0,
 *                                             300, 300, 1000, 1, 200, 1, 240, 1, 8000, 4, 200, 2000 };
 *     uint8_t file[REMBILUNG_FILE_MOST], report[REMBILUNG_REPORT_MOST];
 *     uint64_t made = rembilung_write_job(numbers, file, sizeof file);
 *     if (rembilung_refused(made)) ..           rembilung_refusal(made) says why, rembilung_place(made) where
 *     uint64_t done = rembilung_verdict(sheet, REMBILUNG_SHEET_BYTES, file, (size_t)made, report, sizeof report);
 *     if (rembilung_refused(done)) ..
 *     fwrite(report, 1, (size_t)done, stdout);  the report has no closing zero byte
 *
 * A support goes the same way, with 13 numbers and rembilung_write_support.
 *
 * A book is up to 200 scaffold jobs in one row of bytes, stored by column: the number of rows, then the first number of
 * every row, the second of every row, to the 25th, each in a job file's groups. Rows stand in memory one after another, 25
 * numbers each:
 *
 *     static uint32_t rows[REMBILUNG_NUMBERS_OF(REMBILUNG_BOOK_ROWS_MOST)];   20,000 bytes
 *     uint64_t read = rembilung_read_book(book, book_len, rows, REMBILUNG_NUMBERS_OF(REMBILUNG_BOOK_ROWS_MOST));
 *     if (rembilung_refused(read)) ..
 *     rows[REMBILUNG_NUMBERS_OF(2) + REMBILUNG_BAY]   the bay of the third row, where read is at least 3
 *
 * Whether a book holds a job with a failed check, rembilung_first_failing says: it judges the rows in their order and
 * stops at the first that has one.
 *
 *     uint32_t first[REMBILUNG_FIRST_FAILING_NUMBERS];
 *     uint64_t done = rembilung_first_failing(sheet, REMBILUNG_SHEET_BYTES, book, book_len, first);
 *     if (rembilung_refused(done)) ..
 *     first[REMBILUNG_FIRST_FAILING_ROW] == REMBILUNG_NONE    no row fails a check
 *
 * Where a number is known only between two reports, as the ground's strength from two trial pits or the wind as a band,
 * rembilung_between tells of a mild and a harsh job what holds of every job between them:
 *
 *     uint32_t answer[REMBILUNG_BETWEEN_NUMBERS];
 *     uint64_t told = rembilung_between(sheet, REMBILUNG_SHEET_BYTES, mild, harsh, answer);
 *     if (rembilung_refused(told)) ..
 *     answer[11 - 1] == REMBILUNG_UNDECIDED           check 11 passes at the mild end, fails at the harsh
 *
 * A load cell under a pad logs records of eight bytes, each a push, a pull or silence. rembilung_cells gives for each
 * record the greatest push among the last w:
 *
 *     static uint8_t out[REMBILUNG_CELL_OUTPUT_MOST];                 32,000 bytes
 *     uint64_t done = rembilung_cells(records, records_len, 10, out, sizeof out);
 *     if (rembilung_refused(done)) ..
 *     out[4 * k], out[4 * k + 1], ..                  the number of record k, from 0, low byte first
 *
 * Every input is met by an answer or a refusal: nothing has to be tested before a call.
 *
 * Buffers. A pointer and the length after it are one lent buffer, and so are 25 numbers, or 13, or 14, or 2; nothing else
 * is read or written. The length of rows is in numbers, 25 a row: REMBILUNG_NUMBERS_OF(rows). A pointer is never null, not
 * even where its length is 0. A buffer that is written shares no byte with another of the call. Bytes may stand at any
 * address; numbers stand where C puts a uint32_t. What a call does not write, it only reads.
 *
 * No call keeps anything: there is no state, nothing is allocated or printed, and threads may call at the same time as
 * long as none writes to a buffer that another has lent.
 *
 * To link, on x86-64: cc host.c librembilung.a. From C99 or C++. Of the C library only memcpy and its kin are asked for.
 */
#ifndef REMBILUNG_H
#define REMBILUNG_H

#include <stddef.h>
#include <stdint.h>

#ifdef __cplusplus
extern "C" {
#endif

/* Bytes of a column sheet: 251 entries of two bytes, low byte first. Entry k, from 0 to 250, is the stability factor in
 * thousandths at slenderness k: 1 to 1,000, none above the entry before it, and the last at least 117. Between two
 * entries the stability factor lies on the straight line; above 250 it is 7320 / slenderness squared. */
#define REMBILUNG_SHEET_BYTES 502
/* The numbers of a scaffold job, and of a formwork support. */
#define REMBILUNG_NUMBERS 25
#define REMBILUNG_SUPPORT_NUMBERS 13
/* No job file is longer, and no report: with buffers of these sizes refusal 8 never comes, whichever kind the job is. */
#define REMBILUNG_FILE_MOST 42
#define REMBILUNG_REPORT_MOST 178
/* The same where the job is a support. */
#define REMBILUNG_SUPPORT_FILE_MOST 24
#define REMBILUNG_SUPPORT_REPORT_MOST 127
/* The rows of a book, at most; with room for so many, refusal 8 never comes of reading one. */
#define REMBILUNG_BOOK_ROWS_MOST 200
/* No book is longer: with a buffer of this size refusal 8 never comes of writing one. */
#define REMBILUNG_BOOK_MOST 8402
/* The numbers of so many rows: the length to lend rows with. */
#define REMBILUNG_NUMBERS_OF(rows) ((size_t)(rows) * REMBILUNG_NUMBERS)
/* How many checks there are, and what rembilung_between answers: a number for each, then two heights. */
#define REMBILUNG_CHECKS 12
#define REMBILUNG_BETWEEN_NUMBERS 14
/* What rembilung_first_failing answers: the row and how many were judged. */
#define REMBILUNG_FIRST_FAILING_NUMBERS 2
/* A load cell's records: bytes in one, records in a run at most, records that a greatest push is taken over at most. */
#define REMBILUNG_CELL_RECORD 8
#define REMBILUNG_CELL_RECORDS_MOST 8000
#define REMBILUNG_CELL_W_MOST 500
/* No output is longer: with a buffer of this size refusal 8 never comes of load cells. */
#define REMBILUNG_CELL_OUTPUT_MOST 32000
/* "None" in an answer of numbers, which no height and no row comes near. */
#define REMBILUNG_NONE UINT32_C(4294967295)

/* The numbers of a scaffold job in their order: numbers[REMBILUNG_BAY] is the bay. Fields count from 1 in a refusal, so
 * field p is numbers[p - 1]. Beside each: the field, its unit, its range. */
enum rembilung_number {
    REMBILUNG_FAMILY,          /*  1  1 double row of poles, 2 single row */
    REMBILUNG_TUBE,            /*  2  1 is 48 by 3.5 mm, 2 is 51 by 3.0 mm */
    REMBILUNG_SPACING,         /*  3  pole spacing across, lb, cm: double row 105, 130 or 155; single row 60 to 150 */
    REMBILUNG_BAY,             /*  4  bay la, pole spacing along the wall, cm: 60 to 200 */
    REMBILUNG_STEP,            /*  5  step h, height between ledgers, cm: 60 to 200 */
    REMBILUNG_TIE_INTERVAL,    /*  6  steps between wall ties: 2 or 3 (along the wall there is a tie every three bays) */
    REMBILUNG_HEIGHT,          /*  7  height H of the scaffold, cm: double row 1 to 5,000; single row 1 to 2,400 */
    REMBILUNG_BOARDS,          /*  8  1 steel, 2 bamboo, 3 timber */
    REMBILUNG_BOARDED_LAYERS,  /*  9  1 to 10 */
    REMBILUNG_WORKING_LAYERS,  /* 10  1 to 9, and no more than the boarded layers */
    REMBILUNG_LIVE_ONE_LAYER,  /* 11  greatest live load on one layer, q, N/m2: 0 to 10,000 */
    REMBILUNG_LIVE_ALL_LAYERS, /* 12  live load summed over layers, Q, N/m2: 0 to 30,000, and no less than field 11 */
    REMBILUNG_NETS,            /* 13  weight of nets on one pole, S, N: 0 to 5,000 */
    REMBILUNG_STRUCTURE,       /* 14  weight of the structure on one pole, gk, N for each metre of height: 50 to 500 */
    REMBILUNG_BASIC_WIND,      /* 15  basic wind pressure w0, N/m2: 0 to 2,000 */
    REMBILUNG_HEIGHT_FACTOR,   /* 16  wind's height factor, thousandths: 100 to 4,000 */
    REMBILUNG_ENCLOSURE,       /* 17  1 open, 2 half closed, 3 fully closed */
    REMBILUNG_SHIELD,          /* 18  thousandths. Open: the truss shape factor, 1 to 2,000. Else the shielded share of
                                *     the face: half closed 1 to 700; fully closed 1 to 1,000 */
    REMBILUNG_WALL_BEHIND,     /* 19  1 closed, 2 open, framed or pierced */
    REMBILUNG_WALL_THICKNESS,  /* 20  mm: 0 to 2,000; a single row needs more than 180 */
    REMBILUNG_WALL_MAKE,       /* 21  1 sound, 2 hollow or light, 3 mortar M1.0 or weaker; a single row needs 1 */
    REMBILUNG_TIE_CAPACITY,    /* 22  N: 8,000 (a coupler tie) to 100,000 */
    REMBILUNG_SOIL,            /* 23  1 gravel, 2 sand, 3 fill, 4 clay, 5 rock or concrete */
    REMBILUNG_GROUND_STRENGTH, /* 24  kPa: 10 to 2,000 */
    REMBILUNG_PAD_AREA         /* 25  pad under one pole, cm2: 100 to 10,000 */
};

/* The numbers of a formwork support in their order (clause 5.6). Bay and spacing are alike, so that one number serves. */
enum rembilung_support_number {
    REMBILUNG_SUPPORT_KIND,            /*  1  3, which marks a support */
    REMBILUNG_SUPPORT_TUBE,            /*  2  1 is 48 by 3.5 mm, 2 is 51 by 3.0 mm */
    REMBILUNG_SUPPORT_STEP,            /*  3  step h, height between ledgers, cm: 60 to 200 */
    REMBILUNG_SUPPORT_OVERHANG,        /*  4  a, what the pole stands out above its top ledger, cm: 0 to 100 */
    REMBILUNG_SUPPORT_BAY,             /*  5  bay, pole spacing both ways, cm: 60 to 200 */
    REMBILUNG_SUPPORT_DEAD,            /*  6  dead load on one pole, N: 0 to 60,000 */
    REMBILUNG_SUPPORT_LIVE,            /*  7  live load on one pole, N: 0 to 60,000 */
    REMBILUNG_SUPPORT_BASIC_WIND,      /*  8  basic wind pressure w0, N/m2: 0 to 2,000 */
    REMBILUNG_SUPPORT_HEIGHT_FACTOR,   /*  9  wind's height factor, thousandths: 100 to 4,000 */
    REMBILUNG_SUPPORT_SHAPE,           /* 10  wind's shape factor, thousandths: 0 to 2,000 */
    REMBILUNG_SUPPORT_SOIL,            /* 11  1 gravel, 2 sand, 3 fill, 4 clay, 5 rock or concrete */
    REMBILUNG_SUPPORT_GROUND_STRENGTH, /* 12  kPa: 10 to 2,000 */
    REMBILUNG_SUPPORT_PAD_AREA         /* 13  pad under one pole, cm2: 100 to 10,000 */
};

/* What every call returns: a length or a count, below 2^32, or a refusal number times 2^32 plus its place.
 * On a refusal every buffer is as it was. On success only the length returned is written; what lies beyond is as it was.
 *
 *     refusal  when                                                          place
 *     1        the sheet is not 502 bytes                                    its length in bytes
 *     2        an entry of the sheet is 0, above 1,000 or above the entry    the first such entry, from 0
 *              before it, or entry 250 is below 117
 *     3        a number is outside its range                                 the lowest such field, from 1
 *     4        a scaffold: more working layers than boarded layers, or a     10, or else 12
 *              live load summed over layers below the greatest on one layer
 *     5        a single row: wall thickness 180 mm or less, or make not 1    20, or else 21
 *     6        the job file ends inside or before a number, or a number is   offset of that number's first byte
 *              not in its shortest form or above 4,294,967,295
 *     7        the job file goes on after its 25th number, or after the      offset of the first byte too many
 *              13th where its first is 3
 *     8        a buffer is too short                                         the length that it needs: bytes, or rows
 *     9        the book ends inside or before a number, or a number is not   offset of that number's first byte, or of the
 *              in its shortest form or above 4,294,967,295, or bytes follow  first byte too many
 *              its last number; a book of no bytes holds no rows
 *     10       a book of more than 200 rows                                  the number of rows
 *     11       a row of a book that 3, 4 or 5 would refuse as a scaffold     the lowest such row, from 0
 *              job; so a row that begins with 3
 *     12       two jobs of which the second is not the first or a harsher    the lowest field that is unlike or runs the
 *              one                                                           wrong way, from 1
 *     13       w is 0 or above 500                                           w
 *     14       a load cell's record whose kind, zero bytes or value is       the first such record, from 0
 *              wrong
 *     15       load cells' records that are not whole, or more than 8,000    their length in bytes
 *
 * Of the harsh job of rembilung_between the places of 3, 4 and 5 are 25 higher, from 26 to 50.
 * A place above 4,294,967,295 is given as 4,294,967,295. Where several refusals are due, each call says which goes first.
 * Of a support 4 and 5 are never due.
 */
static inline int rembilung_refused(uint64_t result) {
    return result >> 32 != 0;
}

/* The refusal number, 1 to 15, or 0 where nothing was refused. */
static inline uint32_t rembilung_refusal(uint64_t result) {
    return (uint32_t)(result >> 32);
}

/* The place of a refusal; where nothing was refused, the length or the count. */
static inline uint32_t rembilung_place(uint64_t result) {
    return (uint32_t)(result & 0xFFFFFFFFu);
}

/* The whole call: judges the job of a file under a sheet and writes the report.
 * Returns the report's length, or a refusal, the first of 1, 2, 6, 7, 3, 4, 5, 8.
 *
 * A file whose first number is 3 is read as a support's 13 numbers, any other as a scaffold's 25; a first number that is
 * none of 1, 2 and 3 is refused 3 at field 1, unless 6 or 7 comes before.
 *
 * The report is text in ASCII, each line ended by one byte 0A (hexadecimal), one space between parts. That of a scaffold
 * has fifteen lines:
 *
 *     1 VERDICT FIGURE    transom moment, N mm
 *     2 VERDICT FIGURE    transom deflection, micrometres
 *     3 VERDICT FIGURE    ledger moment, N mm
 *     4 VERDICT FIGURE    ledger deflection, micrometres
 *     5 VERDICT FIGURE    slip at the coupler, N
 *     6 VERDICT FIGURE    slenderness of the pole between ledgers
 *     7 VERDICT FIGURE    pole stability without wind: pole force N, N
 *     8 VERDICT FIGURE    pole stability with wind: pole force Nw, N
 *     9 VERDICT FIGURE    tie force, N
 *     10 VERDICT FIGURE   pole force N against 40,000 N
 *     11 VERDICT FIGURE   pole force N against what the ground under the pad bears
 *     12 VERDICT FIGURE   the job's height against the permitted height: FIGURE is PERMITTED, cm, and 0 with "height none"
 *     height STABILITY PERMITTED    cm, or "height none" where the pole stands at no height
 *     wind WK MW                    wind pressure, N/m2, and the pole's moment from it, N mm
 *     column Z                      slenderness at which the sheet is read, in tenths: 1974 is 197.4
 *
 * VERDICT is 1 passes, 2 fails, 0 not due (of a scaffold check 8 alone, in light wind on an open face). Figures are
 * rounded up to a whole number, but for that of 12, which is rounded down. Z is rounded up too: to a tenth up to 250, to
 * a whole number above, so that 250.1 is shown as 2510.
 * STABILITY is the greatest height from 0 to 6,000 cm at which checks 7 and 8 hold, the job's own height set aside.
 * PERMITTED is STABILITY up to 2,534, then 2,534 up to a STABILITY of 2,599, from 2,600 on what clause 5.3.7 makes of it,
 * rounded down; and at most 5,000 (double row) or 2,400 (single row). Check 12 fails where the job is higher than that,
 * and with "height none".
 *
 * A support is judged by clause 5.6, and its report has fourteen lines: the line "height" is left out. Checks 7, 8, 10
 * and 11 apply, 8 also without wind; the others are shown with verdict 0 and figure 0. */
uint64_t rembilung_verdict(const uint8_t *sheet, size_t sheet_len,
                           const uint8_t *file, size_t file_len,
                           uint8_t *report, size_t report_len);

/* Writes a scaffold job, always 25 numbers, as a job file. A first number of 3 is refused 3 at field 1.
 * Returns the file's length, or a refusal, the first of 3, 4, 5, 8. */
uint64_t rembilung_write_job(const uint32_t numbers[REMBILUNG_NUMBERS],
                             uint8_t *file, size_t file_len);

/* Writes a formwork support, always 13 numbers, as a job file. A first number other than 3 is refused 3 at field 1.
 * Returns the file's length, or a refusal, the first of 3, 8. */
uint64_t rembilung_write_support(const uint32_t numbers[REMBILUNG_SUPPORT_NUMBERS],
                                 uint8_t *file, size_t file_len);

/* Reads a job file of either kind into lent room for 25 numbers. What is read writes back as the same bytes.
 * Returns 25; or 13, where it is a support's: its numbers are the first 13, and the others are as they were; or a
 * refusal, the first of 6, 7, 3, 4, 5. */
uint64_t rembilung_read_job(const uint8_t *file, size_t file_len,
                            uint32_t numbers[REMBILUNG_NUMBERS]);

/* Writes rows of scaffold jobs as a book. There are numbers / 25 rows; what stands after the last whole row is not read.
 * Returns the book's length, or a refusal, the first of 10, 11, 8. No rows are a book too, of one byte. */
uint64_t rembilung_write_book(const uint32_t *rows, size_t numbers,
                              uint8_t *book, size_t book_len);

/* Reads a book into lent rows, of which there are numbers / 25. A book of no bytes at all is an empty season: no rows.
 * What is read writes back as the same bytes, but for that one: no rows are written as one byte, 00. So a host that could
 * not read a file must not lend no bytes for it: they are no refusal here, nor in rembilung_first_failing.
 * Returns the number of rows, from 0 to 200, and writes that many; what stands after them is as it was. Or a refusal: 9 at
 * 0 where the count itself is damaged, 10 as soon as the count is read, whatever follows, then 9 of the numbers and what
 * follows them, then 11, then 8 with the number of rows. */
uint64_t rembilung_read_book(const uint8_t *book, size_t book_len,
                             uint32_t *rows, size_t numbers);

/* What holds of every accepted scaffold job between two, for each check: answer[c - 1] of check c. A check that is not due
 * counts as one that passes. */
enum rembilung_outcome {
    REMBILUNG_PASSES_THROUGHOUT = 1, /* it fails for no job between the ends */
    REMBILUNG_FAILS_THROUGHOUT = 2,  /* it fails for every one */
    REMBILUNG_UNDECIDED = 3          /* it passes at the mild end and fails at the harsh end */
};

/* Where the two stability heights stand in the answer, behind the twelve checks. */
enum rembilung_between_number {
    REMBILUNG_BETWEEN_MILD_HEIGHT = 12, /* the mild end's stability height, cm, or REMBILUNG_NONE */
    REMBILUNG_BETWEEN_HARSH_HEIGHT      /* the harsh end's; that of each job between is at most the mild end's and at
                                         * least the harsh end's, "none" counting as the least */
};

/* What holds of every accepted scaffold job between a mild and a harsh one, under a sheet: 14 numbers.
 * Returns 14, or a refusal with the answer as it was, the first of 1, 2, then 3, 4, 5 of the mild job, then 3, 4, 5 of the
 * harsh job with its places from 26 to 50, then 12.
 *
 * The harsh job is the mild one or a harsher one: fields 1, 2, 8, 17 and 19 are equal; 3 to 7, 9 to 16 and 18 are no
 * smaller; 22, 24 and 25 are no greater, and nor is the soil factor of 23, which is the same for soils 1, 2 and 3; 20 and
 * 21 are free. Else 12 names the lowest field of which that is not so. A job is between them where it is so of the mild job
 * and that job, and of that job and the harsh job. Both ends may be the same job. */
uint64_t rembilung_between(const uint8_t *sheet, size_t sheet_len,
                           const uint32_t mild[REMBILUNG_NUMBERS],
                           const uint32_t harsh[REMBILUNG_NUMBERS],
                           uint32_t answer[REMBILUNG_BETWEEN_NUMBERS]);

/* Where the two numbers stand in the answer of rembilung_first_failing. */
enum rembilung_first_failing_number {
    REMBILUNG_FIRST_FAILING_ROW,   /* the first row with a failed check, from 0, or REMBILUNG_NONE */
    REMBILUNG_FIRST_FAILING_JUDGED /* how many rows were judged: that row and those before it; every row with none */
};

/* The first row of a book that has a failed check under a sheet: a verdict of 2 among its twelve. The rows are judged in
 * their order and no further than that one; it is the same row as if all were judged.
 * Returns 2, or a refusal with the answer as it was, the first of 1, 2, then the whole book's as rembilung_read_book has
 * them: 9 of a damaged count, 10, 9, 11. So a row that 11 refuses is named although one before it has a failed check. A book
 * of no bytes, or of no rows, has none that fails, and none is judged. */
uint64_t rembilung_first_failing(const uint8_t *sheet, size_t sheet_len,
                                 const uint8_t *book, size_t book_len,
                                 uint32_t answer[REMBILUNG_FIRST_FAILING_NUMBERS]);

/* The first byte of a load cell's record. Three zero bytes follow it, then newtons as an IEEE 754 single, low byte first. */
enum rembilung_cell_kind {
    REMBILUNG_CELL_PUSH = 1,
    REMBILUNG_CELL_PULL = 2,
    REMBILUNG_CELL_SILENT = 3 /* its newtons are four zero bytes */
};

/* For each record of a load cell the greatest push among the last w records, that record itself among them, fewer at the
 * start: four bytes, low byte first. A push counts as its newtons, up to a whole newton; pulls and silence count as 0.
 * Returns the output's length, 4 a record, or a refusal with the output as it was, the first of 13, 15, 14, 8.
 *
 * The newtons of a push or a pull are a number from 0 to 100,000; minus zero is zero. A value that is no number, or negative,
 * or above, is refused 14; so is silence whose newtons are not four zero bytes. A run of no records is accepted, and nothing
 * is written. The work grows with the records, and not with w. */
uint64_t rembilung_cells(const uint8_t *records, size_t records_len,
                         uint32_t w,
                         uint8_t *out, size_t out_len);

#ifdef __cplusplus
}
#endif

#endif
