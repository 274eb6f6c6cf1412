/* The vectors of tests/vectors through the exported calls, byte for byte, with buffers of every length. */
#include <string.h>

#include "check.h"
#include "parts.h"
#include "paper.h"

/* A job under one of the sheets with its file, how many numbers the file has, or 0 where it cannot be read, those numbers, and
 * the answer due. */
typedef struct {
    const char *from;
    int line;
    int sheet;
    Bytes file;
    size_t count;
    uint32_t numbers[REMBILUNG_NUMBERS];
    Answer due;
} Vector;

/* Numbers to be written into a buffer of a length; those of a support are the first 13. */
typedef struct {
    const char *from;
    int line;
    uint32_t numbers[REMBILUNG_NUMBERS];
    size_t room;
    Answer due;
} WriteVector;

/* A file to be read: the refusal and its place due, or 0, how many numbers it has, and the numbers. */
typedef struct {
    const char *from;
    int line;
    Bytes file;
    uint32_t refusal;
    uint32_t place;
    uint32_t numbers[REMBILUNG_NUMBERS];
} ReadVector;

/* A file to be judged under one of the sheets into a buffer of a length. */
typedef struct {
    const char *from;
    int line;
    int sheet;
    Bytes file;
    size_t room;
    Answer due;
} FileVector;

/* A call on a book: the rows, or the book, that are lent to be read, and room for bytes, or for numbers. */
typedef struct {
    const char *from;
    int line;
    Bytes given;
    size_t room;
    Answer due;
} BookVector;

/* A mild and a harsh job under one of the sheets. */
typedef struct {
    const char *from;
    int line;
    int sheet;
    uint32_t mild[REMBILUNG_NUMBERS], harsh[REMBILUNG_NUMBERS];
    Answer due;
} BetweenVector;

/* Load cells' records with w, and room for the output. */
typedef struct {
    const char *from;
    int line;
    Bytes records;
    uint32_t w;
    size_t room;
    Answer due;
} CellsVector;

/* A book under one of the sheets. */
typedef struct {
    const char *from;
    int line;
    int sheet;
    Bytes book;
    Answer due;
} FirstFailingVector;

/* A sheet to be judged with job J: the refusal due, or 0 where it stands. */
typedef struct {
    int line;
    Bytes sheet;
    uint32_t refusal;
    uint32_t place;
} SheetVector;

#include "vectors.h"

#define COUNT(table) (sizeof(table) / sizeof *(table))

static const Kind *kind_of(const Vector *vector) {
    return vector->count == support.count ? &support : &scaffold;
}

static void whole_call(const Vector *vector) {
    for (size_t length = 0; length <= REMBILUNG_REPORT_MOST + BEYOND; length++) {
        case_begins("%s:%d: verdict, report buffer of %zu", vector->from, vector->line, length);
        expect_verdict(sheets[vector->sheet], vector->file, length, due_in(vector->due, length));
    }
}

/* Reading refuses what the whole call refuses, the sheets of these vectors being good. */
static Answer read_due(const Vector *vector) {
    Bytes numbers = {vector->numbers, vector->count * sizeof *vector->numbers};
    return vector->due.refusal == 0 ? gives((uint32_t)vector->count, numbers) : vector->due;
}

static void read_back(const Vector *vector) {
    case_begins("%s:%d: read_job", vector->from, vector->line);
    expect_read(vector->file, read_due(vector));
}

/* 25 numbers that begin with 3 are no scaffold job, whatever a file of them is. */
static Answer write_due(const Vector *vector) {
    if (kind_of(vector) == &scaffold && vector->numbers[0] == 3)
        return refused(3, 1);
    return vector->due.refusal == 0 ? gives((uint32_t)vector->file.length, vector->file) : vector->due;
}

static void written(const Vector *vector) {
    for (size_t length = 0; length <= REMBILUNG_FILE_MOST + BEYOND; length++) {
        case_begins("%s:%d: %s, file buffer of %zu", vector->from, vector->line, kind_of(vector)->call, length);
        expect_write(kind_of(vector), vector->numbers, length, due_in(write_due(vector), length));
    }
}

/* The library's own bytes read by the library, and its own numbers written by it, in buffers of just their size. */
static void round_trip(const Vector *vector) {
    const Kind *kind = kind_of(vector);
    uint8_t file[REMBILUNG_FILE_MOST] = {0};
    uint32_t numbers[REMBILUNG_NUMBERS];
    case_begins("%s:%d: %s then read_job", vector->from, vector->line, kind->call);
    uint64_t wrote = kind->write(vector->numbers, file, sizeof file);
    uint64_t read = rembilung_read_job(file, wrote < sizeof file ? (size_t)wrote : sizeof file, numbers);
    if (read != kind->count || memcmp(numbers, vector->numbers, kind->count * sizeof *numbers) != 0)
        differs("the job that was written is not the job that is read");
    case_begins("%s:%d: read_job then %s", vector->from, vector->line, kind->call);
    read = rembilung_read_job(vector->file.at, vector->file.length, numbers);
    wrote = kind->write(numbers, file, sizeof file);
    if (read != kind->count || wrote != vector->file.length || memcmp(file, vector->file.at, (size_t)wrote) != 0)
        differs("the file that was read is not the file that is written");
}

static void every_call(const Vector *vector) {
    whole_call(vector);
    read_back(vector);
    if (vector->count > 0)
        written(vector);
    if (vector->due.refusal == 0)
        round_trip(vector);
}

static int begins(const uint8_t *report, size_t length, const char *front) {
    return length >= strlen(front) && memcmp(report, front, strlen(front)) == 0;
}

static int ends(const uint8_t *report, size_t length, const char *back) {
    return length >= strlen(back) && memcmp(report + length - strlen(back), back, strlen(back)) == 0;
}

/* Under a sheet that stands, those of J's lines that no sheet changes are known. */
static void stands(Bytes sheet) {
    uint8_t report[REMBILUNG_REPORT_MOST];
    File j = file_of(&scaffold, job_j);
    size_t length = expect_judged(sheet, file_bytes(&j), report);
    if (length > 0 && !begins(report, length, "1 1 477521\n2 1 1584\n3 1 571785\n4 1 2777\n5 1 4160\n6 1 171\n7 "))
        differs("the report's first lines are not J's");
    if (length > 0 && !ends(report, length, "\nwind 42 24291\ncolumn 1974\n"))
        differs("the report's last lines are not J's");
}

static void under_sheet(const SheetVector *vector) {
    File j = file_of(&scaffold, job_j);
    case_begins("sheets.txt:%d: verdict with job J", vector->line);
    if (vector->refusal == 0)
        stands(vector->sheet);
    else
        expect_verdict(vector->sheet, file_bytes(&j), REMBILUNG_REPORT_MOST, refused(vector->refusal, vector->place));
}

static void all_sheets(void) {
    for (size_t k = 0; k < COUNT(sheet_vectors); k++)
        under_sheet(&sheet_vectors[k]);
}

static size_t all_of(const Vector *rows, size_t count) {
    for (size_t k = 0; k < count; k++)
        every_call(&rows[k]);
    return count;
}

static size_t all_writes(const Kind *kind, const WriteVector *rows, size_t count) {
    for (size_t k = 0; k < count; k++) {
        case_begins("%s:%d: %s", rows[k].from, rows[k].line, kind->call);
        expect_write(kind, rows[k].numbers, rows[k].room, rows[k].due);
    }
    return count;
}

static size_t all_reads(const ReadVector *rows, size_t count) {
    for (size_t k = 0; k < count; k++) {
        const ReadVector *row = &rows[k];
        Answer due = {row->refusal, row->place, {row->numbers, row->refusal == 0 ? row->place * sizeof *row->numbers : 0}};
        case_begins("%s:%d: read_job", row->from, row->line);
        expect_read(row->file, due);
    }
    return count;
}

static size_t all_file_verdicts(const FileVector *rows, size_t count) {
    for (size_t k = 0; k < count; k++) {
        case_begins("%s:%d: verdict of a file", rows[k].from, rows[k].line);
        expect_verdict(sheets[rows[k].sheet], rows[k].file, rows[k].room, rows[k].due);
    }
    return count;
}

/* A book, or an output, up to this length is tried in rooms of every length. */
enum { SHORT_BOOK_MOST = 400, SHORT_OUTPUT_MOST = 400 };

static size_t numbers_in(Bytes rows) {
    return rows.length / sizeof(uint32_t);
}

/* The rows without the numbers after the last whole one. */
static Bytes whole_rows(Bytes rows) {
    return (Bytes){rows.at, REMBILUNG_NUMBERS_OF(numbers_in(rows) / REMBILUNG_NUMBERS) * sizeof(uint32_t)};
}

static void write_into(const BookVector *row, size_t room, Answer due) {
    case_begins("%s:%d: write_book, buffer of %zu", row->from, row->line, room);
    expect_write_book(row->given, numbers_in(row->given), room, due);
    expect_write_book(whole_rows(row->given), numbers_in(row->given), room, due);
}

static void read_into(const BookVector *row, size_t numbers, Answer due) {
    case_begins("%s:%d: read_book, room for %zu numbers", row->from, row->line, numbers);
    expect_read_book(row->given, numbers, due);
}

/* A book that was written reads back as its rows. */
static void write_book(const BookVector *row) {
    Bytes rows = whole_rows(row->given);
    write_into(row, row->room, row->due);
    if (row->due.refusal != 0)
        return;
    case_begins("%s:%d: read_book of the book", row->from, row->line);
    expect_read_book(row->due.written, numbers_in(rows), gives((uint32_t)(numbers_in(rows) / REMBILUNG_NUMBERS), rows));
    for (size_t room = 0; row->due.place <= SHORT_BOOK_MOST && room <= row->due.place + BEYOND; room++)
        write_into(row, room, due_in(row->due, room));
}

/* What the rows of a book write back as: a book of no bytes has none, and those are one byte. */
static Bytes written_back(Bytes book) {
    static const uint8_t no_rows[] = {0x00};
    return book.length == 0 ? (Bytes){no_rows, sizeof no_rows} : book;
}

/* Rows that were read write back as their book. */
static void read_book(const BookVector *row) {
    Bytes rows = row->due.written, back = written_back(row->given);
    read_into(row, row->room, row->due);
    if (row->due.refusal != 0)
        return;
    case_begins("%s:%d: write_book of the rows", row->from, row->line);
    expect_write_book(rows, numbers_in(rows), back.length, gives((uint32_t)back.length, back));
    for (size_t room = 0; row->given.length <= SHORT_BOOK_MOST && room <= numbers_in(rows) + BEYOND; room++)
        read_into(row, room, due_in(row->due, room / REMBILUNG_NUMBERS));
}

/* No refusal but 8 hangs on the room. */
static void refused_in_any(const BookVector *row, void (*into)(const BookVector *, size_t, Answer)) {
    for (size_t room = 0; row->due.refusal > 8 && room <= BEYOND; room++)
        into(row, room, row->due);
}

static size_t all_book_writes(const BookVector *rows, size_t count) {
    for (size_t k = 0; k < count; k++) {
        write_book(&rows[k]);
        refused_in_any(&rows[k], write_into);
    }
    return count;
}

static size_t all_book_reads(const BookVector *rows, size_t count) {
    for (size_t k = 0; k < count; k++) {
        read_book(&rows[k]);
        refused_in_any(&rows[k], read_into);
    }
    return count;
}

static void between(const BetweenVector *row) {
    case_begins("%s:%d: between", row->from, row->line);
    expect_between(sheets[row->sheet], row->mild, row->harsh, row->due);
}

static size_t all_betweens(const BetweenVector *rows, size_t count) {
    for (size_t k = 0; k < count; k++)
        between(&rows[k]);
    return count;
}

static void cells_into(const CellsVector *row, size_t room, Answer due) {
    case_begins("%s:%d: cells, output of %zu bytes", row->from, row->line, room);
    expect_cells(row->records, row->w, room, due);
}

/* Rooms of every length, of a long output those near its own; where it was too short, with room enough nothing is known. */
static void cells(const CellsVector *row) {
    uint32_t refusal = row->due.refusal;
    size_t length = refusal == 0 || refusal == 8 ? row->due.place : 0, end = refusal == 8 ? length : length + BEYOND + 1;
    cells_into(row, row->room, row->due);
    for (size_t room = length > SHORT_OUTPUT_MOST ? length - BEYOND : 0; room < end; room++)
        cells_into(row, room, due_in(row->due, room));
}

static size_t all_cells(const CellsVector *rows, size_t count) {
    for (size_t k = 0; k < count; k++)
        cells(&rows[k]);
    return count;
}

/* What this call refuses of a book, reading refuses alike, whatever room there is. */
static size_t all_first_failings(const FirstFailingVector *rows, size_t count) {
    for (size_t k = 0; k < count; k++) {
        const FirstFailingVector *row = &rows[k];
        case_begins("%s:%d: first_failing", row->from, row->line);
        expect_first_failing(sheets[row->sheet], row->book, row->due);
        if (row->due.refusal > 8)
            expect_read_book(row->book, 0, row->due);
    }
    return count;
}

/* Counted, since no compiler says that a table which stands in an included file is left out. */
static void all_requests(void) {
    size_t run = all_of(request_verdicts, COUNT(request_verdicts));
    run += all_writes(&scaffold, request_write_jobs, COUNT(request_write_jobs));
    run += all_writes(&support, request_write_supports, COUNT(request_write_supports));
    run += all_reads(request_read_jobs, COUNT(request_read_jobs));
    run += all_file_verdicts(request_verdict_files, COUNT(request_verdict_files));
    run += all_book_writes(request_write_books, COUNT(request_write_books));
    run += all_book_reads(request_read_books, COUNT(request_read_books));
    run += all_betweens(request_betweens, COUNT(request_betweens));
    run += all_cells(request_cells, COUNT(request_cells));
    run += all_first_failings(request_first_failings, COUNT(request_first_failings));
    case_begins("%d cases of request-NN.txt", REQUEST_CASES);
    if (run != REQUEST_CASES)
        differs("only %zu are run", run);
}

void test_vectors(void) {
    all_sheets();
    all_of(vectors, COUNT(vectors));
    all_requests();
}
