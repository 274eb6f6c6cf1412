/* Fuzzes books: reading and writing against a plain way to the same, and the first failing row against a report on each row,
 * every buffer lent between guards; and what the host says of a book that is refused. */
#define _DEFAULT_SOURCE
#include "book.h"

#include "guarded.h"
#include "jobs.h"
#include "report.h"
#include "sheet.h"

#define ROWS_MOST REMBILUNG_BOOK_ROWS_MOST
#define NUMBERS_MOST REMBILUNG_NUMBERS_OF(ROWS_MOST + 1)
#define REFUSED_WITH(refusal, place) ((uint64_t)(refusal) << 32 | (uint64_t)(place))

static Guarded lent_book, lent_rows, lent_sheet, lent_answer;

/* A book as a plain reader finds it: rows as far as they are there, and where they end or are damaged. */
typedef struct {
    const uint8_t *bytes;
    size_t length;
    size_t at;
    int damaged;
    uint32_t rows[NUMBERS_MOST];
    size_t count;
} Plain;

/* How many bytes go before the first one below 128. */
static size_t bytes_going_on(const Plain *plain) {
    size_t at = plain->at;
    while (at < plain->length && plain->bytes[at] >= 0x80)
        at++;
    return at - plain->at;
}

/* A number ends with its first byte below 128; where there is none, or another form is shorter, it is damaged. */
static uint64_t plain_number(Plain *plain) {
    size_t more = bytes_going_on(plain), left = plain->length - plain->at;
    const uint8_t *from = plain->bytes + plain->at;
    uint64_t value = 0;
    plain->damaged = more == left || more > 4 || (more > 0 && from[more] == 0);
    for (size_t k = 0; !plain->damaged && k <= more; k++)
        value += (uint64_t)(from[k] % 128) << (7 * k);
    plain->damaged |= value > UINT32_MAX;
    plain->at += plain->damaged ? 0 : more + 1;
    return value;
}

/* Column by column; stops at the first damaged number. */
static void plain_columns(Plain *plain) {
    for (size_t k = 0; !plain->damaged && k < REMBILUNG_NUMBERS_OF(plain->count); k++)
        plain->rows[REMBILUNG_NUMBERS_OF(k % plain->count) + k / plain->count] = (uint32_t)plain_number(plain);
}

/* The lowest row that no job file is written of, or the number of rows. */
static size_t bad_row(const uint32_t *rows, size_t count) {
    uint8_t file[REMBILUNG_FILE_MOST];
    size_t row = 0;
    while (row < count && !rembilung_refused(rembilung_write_job(rows + REMBILUNG_NUMBERS_OF(row), file, sizeof file)))
        row++;
    return row;
}

/* What is due for reading a book with room enough; the room is tried last. A book of no bytes has no rows. */
static uint64_t plain_read(Plain *plain) {
    uint64_t count = plain->length == 0 ? 0 : plain_number(plain);
    if (plain->damaged)
        return REFUSED_WITH(9, 0);
    if (count > ROWS_MOST)
        return REFUSED_WITH(10, count);
    plain->count = (size_t)count;
    plain_columns(plain);
    if (plain->damaged || plain->at < plain->length)
        return REFUSED_WITH(9, plain->at);
    size_t bad = bad_row(plain->rows, plain->count);
    return bad < plain->count ? REFUSED_WITH(11, bad) : plain->count;
}

static size_t plain_groups(uint32_t number, uint8_t *to) {
    to[0] = (uint8_t)(number % 128 + (number < 128 ? 0 : 128));
    return number < 128 ? 1 : 1 + plain_groups(number / 128, to + 1);
}

static size_t plain_write(const uint32_t *rows, size_t count, uint8_t *to) {
    size_t at = plain_groups((uint32_t)count, to);
    for (size_t k = 0; k < REMBILUNG_NUMBERS_OF(count); k++)
        at += plain_groups(rows[REMBILUNG_NUMBERS_OF(k % count) + k / count], to + at);
    return at;
}

/* Reads with room for so many numbers: the answer that is due, and nothing written but the rows. */
static void read_into(const uint8_t *book, const Plain *plain, uint64_t due, size_t numbers, int at_end) {
    uint32_t *rows = lend(&lent_rows, numbers * sizeof rows[0], at_end);
    if (!rembilung_refused(due) && numbers / REMBILUNG_NUMBERS < due)
        due = REFUSED_WITH(8, due);
    MUST(rembilung_read_book(book, plain->length, rows, numbers) == due);
    size_t written = rembilung_refused(due) ? 0 : REMBILUNG_NUMBERS_OF(due) * sizeof rows[0];
    MUST(untouched(&lent_rows, written) && memcmp(rows, plain->rows, written) == 0);
    MUST(memcmp(book, plain->bytes, plain->length) == 0);
}

/* Rows to be written, the numbers lent after the last whole row, and the book that is due where there is room enough. */
typedef struct {
    uint32_t rows[NUMBERS_MOST + REMBILUNG_NUMBERS];
    size_t count;
    size_t after;
    uint8_t book[GUARDED_BYTES];
    size_t length;
    uint64_t due;
} Season;

static void expect(Season *season) {
    size_t bad = bad_row(season->rows, season->count);
    season->length = plain_write(season->rows, season->count, season->book);
    season->due = bad < season->count ? REFUSED_WITH(11, bad) : season->length;
    if (season->count > ROWS_MOST)
        season->due = REFUSED_WITH(10, season->count);
}

/* Writes into room for so many bytes: the answer that is due, and nothing written but the book. */
static void write_into(const Season *season, size_t room, int at_end) {
    size_t numbers = REMBILUNG_NUMBERS_OF(season->count) + season->after, bytes = numbers * sizeof season->rows[0];
    uint32_t *rows = lend(&lent_rows, bytes, at_end);
    uint8_t *book = lend(&lent_book, room, at_end);
    uint64_t due = season->due;
    memcpy(rows, season->rows, bytes);
    if (!rembilung_refused(due) && room < due)
        due = REFUSED_WITH(8, due);
    MUST(rembilung_write_book(rows, numbers, book, room) == due);
    size_t written = rembilung_refused(due) ? 0 : (size_t)due;
    MUST(untouched(&lent_book, written) && memcmp(book, season->book, written) == 0);
    MUST(untouched(&lent_rows, bytes) && memcmp(rows, season->rows, bytes) == 0);
}

static void write_into_all(const Season *season) {
    size_t rooms[] = {0, season->length - 1, season->length, season->length + 1, REMBILUNG_BOOK_MOST};
    for (size_t k = 0; k < 2 * sizeof rooms / sizeof rooms[0]; k++)
        write_into(season, rooms[k / 2], k % 2 == 0);
}

/* Lends the book at one end and, by turns, the rows at one end and the other; at both ends of the book each room has both. */
static const uint8_t *read_into_all(const Plain *plain, uint64_t due, size_t at_end) {
    size_t all = REMBILUNG_NUMBERS_OF(plain->count);
    size_t rooms[] = {0, 24, all == 0 ? 0 : all - 1, all, all + 24, REMBILUNG_NUMBERS_OF(ROWS_MOST)};
    uint8_t *book = lend(&lent_book, plain->length, (int)at_end);
    memcpy(book, plain->bytes, plain->length);
    for (size_t k = 0; k < sizeof rooms / sizeof rooms[0]; k++)
        read_into(book, plain, due, rooms[k], (k + at_end) % 2 == 0);
    return book;
}

/* The host finds a row as the plain reader does. */
static void same_row(const uint8_t *book, const Plain *plain, size_t row) {
    uint32_t numbers[REMBILUNG_NUMBERS];
    row_of_book(book, plain->length, (uint32_t)row, numbers);
    MUST(memcmp(numbers, plain->rows + REMBILUNG_NUMBERS_OF(row), sizeof numbers) == 0);
}

/* The words for a refusal tell bytes too many from a damaged number, and name the number of a row that cannot stand. */
static void explained(const uint8_t *book, const Plain *plain, uint64_t due) {
    Text words = {{0}, 0};
    explain_book(&words, due, book, plain->length);
    MUST(words.length > 20 && words.length < TEXT_ROOM - 1);
    MUST((strstr(words.bytes, "goes on") != NULL) == (rembilung_refusal(due) == 9 && !plain->damaged));
    MUST((strstr(words.bytes, "cannot stand: number ") != NULL) == (rembilung_refusal(due) == 11));
    if (rembilung_refusal(due) == 11)
        same_row(book, plain, rembilung_place(due));
}

/* What was read writes back as the same bytes, and no rows as one byte 0. */
static void back(const uint8_t *book, const Plain *plain) {
    static const uint8_t no_rows[1];
    static Season season;
    const uint8_t *bytes = plain->length == 0 ? no_rows : plain->bytes;
    memcpy(season.rows, plain->rows, REMBILUNG_NUMBERS_OF(plain->count) * sizeof season.rows[0]);
    season.count = plain->count;
    expect(&season);
    MUST(season.due == (plain->length == 0 ? 1 : plain->length) && memcmp(season.book, bytes, season.due) == 0);
    if (plain->count > 0)
        same_row(book, plain, plain->count - 1);
    write_into_all(&season);
}

/* The report of the whole call on a row, which has to accept it, shows a failed check. */
static int row_fails(const Sheet *sheet, const uint32_t *row) {
    uint8_t file[REMBILUNG_FILE_MOST], bytes[REMBILUNG_REPORT_MOST];
    Report report;
    int failed = 0;
    uint64_t made = rembilung_write_job(row, file, sizeof file);
    MUST(!rembilung_refused(made));
    uint64_t done = rembilung_verdict(sheet->bytes, sheet->length, file, (size_t)made, bytes, sizeof bytes);
    MUST(!rembilung_refused(done) && read_report(bytes, (size_t)done, &scaffold, &report));
    for (int k = 0; k < CHECKS; k++)
        failed |= report.verdicts[k] == FAILS;
    return failed;
}

/* A sheet, and what is due of a book under it. */
typedef struct {
    const uint8_t *sheet;
    size_t length;
    uint64_t due;
    uint32_t answer[REMBILUNG_FIRST_FAILING_NUMBERS];
} Judged;

/* The answer that is due, and nothing written but its two numbers, where they are due. */
static void judge(const Judged *judged, const Plain *plain, int at_end) {
    uint8_t *sheet = lend(&lent_sheet, judged->length, at_end), *book = lend(&lent_book, plain->length, at_end);
    uint32_t *answer = lend(&lent_answer, sizeof judged->answer, at_end);
    size_t written = rembilung_refused(judged->due) ? 0 : sizeof judged->answer;
    memcpy(sheet, judged->sheet, judged->length);
    memcpy(book, plain->bytes, plain->length);
    MUST(rembilung_first_failing(sheet, judged->length, book, plain->length, answer) == judged->due);
    MUST(untouched(&lent_answer, written) && memcmp(answer, judged->answer, written) == 0);
    MUST(untouched(&lent_sheet, judged->length) && memcmp(sheet, judged->sheet, judged->length) == 0);
    MUST(untouched(&lent_book, plain->length) && memcmp(book, plain->bytes, plain->length) == 0);
}

static void judge_at_both_ends(const Judged *judged, const Plain *plain) {
    judge(judged, plain, 0);
    judge(judged, plain, 1);
}

/* What reading refuses is refused alike, else every row is judged up to one that fails. */
static void judge_under(const Sheet *sheet, const Plain *plain, uint64_t due) {
    uint32_t row = 0;
    while (!rembilung_refused(due) && row < plain->count && !row_fails(sheet, plain->rows + REMBILUNG_NUMBERS_OF(row)))
        row++;
    Judged judged = {sheet->bytes, sheet->length, rembilung_refused(due) ? due : REMBILUNG_FIRST_FAILING_NUMBERS,
                     {row < plain->count ? row : REMBILUNG_NONE, row < plain->count ? row + 1 : row}};
    judge_at_both_ends(&judged, plain);
}

/* A bad sheet is refused before anything of the book: an entry is 0, or the sheet ends before it. */
static void judge_under_bad(const Sheet *sheet, const Plain *plain) {
    uint8_t bytes[REMBILUNG_SHEET_BYTES];
    size_t entry = plain->length % (REMBILUNG_SHEET_BYTES / 2);
    memcpy(bytes, sheet->bytes, sizeof bytes);
    memset(bytes + 2 * entry, 0, 2);
    judge_at_both_ends(&(Judged){bytes, sizeof bytes, REFUSED_WITH(2, entry), {0, 0}}, plain);
    judge_at_both_ends(&(Judged){bytes, 2 * entry, REFUSED_WITH(1, 2 * entry), {0, 0}}, plain);
}

static void judge_any(const Plain *plain, uint64_t due) {
    static Sheet t, c;
    test_sheet(&t);
    example_sheet(&c);
    judge_under(&t, plain, due);
    judge_under(&c, plain, due);
    judge_under_bad(&t, plain);
}

static void read_any(const uint8_t *data, size_t size) {
    static Plain plain;
    plain = (Plain){.bytes = data, .length = size};
    uint64_t due = plain_read(&plain);
    read_into_all(&plain, due, 0);
    const uint8_t *book = read_into_all(&plain, due, 1);
    if (rembilung_refused(due))
        explained(book, &plain, due);
    else
        back(book, &plain);
    judge_any(&plain, due);
}

/* Rows that all stand, from the bytes: a few, which are quickly tried, or as many as a book has, or one more. */
static void season_of(const uint8_t *data, size_t size, Season *season) {
    season->count = data[0] < 2 ? ROWS_MOST + data[0] : data[0] % 8;
    season->after = data[1] % REMBILUNG_NUMBERS;
    for (size_t row = 0; row < season->count; row++)
        numbers_of(data + row % size, size - row % size, &double_row, season->rows + REMBILUNG_NUMBERS_OF(row));
    expect(season);
}

/* A season's rows written and read; then with one number set to any, and then with one byte of the book changed. */
static void built(const uint8_t *data, size_t size) {
    static Season season;
    size_t any = data[2] + 256u * data[3] + 65536u * data[4];
    season_of(data, size, &season);
    MUST(season.count > ROWS_MOST || !rembilung_refused(season.due));
    write_into_all(&season);
    read_any(season.book, season.length);
    season.rows[any % (REMBILUNG_NUMBERS_OF(season.count) + 1)] = (uint32_t)data[5] << data[6] % 32;
    expect(&season);
    write_into_all(&season);
    read_any(season.book, season.length);
    season.book[any % season.length] ^= data[7];
    read_any(season.book, season.length);
}

int LLVMFuzzerTestOneInput(const uint8_t *data, size_t size) {
    if (size > GUARDED_BYTES - MARKED_BYTES)
        return 0;
    if (lent_book.bytes == NULL) {
        guard(&lent_book);
        guard(&lent_rows);
        guard(&lent_sheet);
        guard(&lent_answer);
    }
    read_any(data, size);
    /* A count that begins so is above 200; the bytes after it make a season. */
    if (size > 8 && data[0] == 0xFE)
        built(data + 1, size - 1);
    return 0;
}
