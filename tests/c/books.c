/* Books of every number of rows, in buffers of every length, cut at every byte, and with every number damaged in every way. */
#include <string.h>

#include "check.h"
#include "damage.h"
#include "paper.h"
#include "parts.h"

enum { MOST = REMBILUNG_BOOK_ROWS_MOST };

static uint32_t few[REMBILUNG_NUMBERS_OF(FEW_ROWS)], many[REMBILUNG_NUMBERS_OF(MOST + 1)];
static Book book;

static Answer book_due(void) {
    return gives((uint32_t)book_bytes(&book).length, book_bytes(&book));
}

static Answer rows_due(const uint32_t *rows) {
    return gives((uint32_t)book.rows, row_bytes(rows, book.rows));
}

static void write_in_every_length(size_t count) {
    for (size_t length = 0; length <= book_bytes(&book).length + BEYOND; length++) {
        case_begins("write_book of %zu rows, buffer of %zu", count, length);
        expect_write_book(row_bytes(few, count), REMBILUNG_NUMBERS_OF(count), length, due_in(book_due(), length));
    }
}

/* What stands behind the rows is not theirs, and nothing can be read there where the rows end at a page. */
static void write_with_more(size_t count) {
    for (size_t more = 1; more < REMBILUNG_NUMBERS; more++) {
        case_begins("write_book of %zu rows and %zu numbers behind them", count, more);
        expect_write_book(row_bytes(few, count), REMBILUNG_NUMBERS_OF(count) + more, REMBILUNG_BOOK_MOST, book_due());
    }
}

static void read_in_every_room(size_t count) {
    for (size_t numbers = 0; numbers <= REMBILUNG_NUMBERS_OF(count + 1) + BEYOND; numbers++) {
        case_begins("read_book of %zu rows, room for %zu numbers", count, numbers);
        expect_read_book(book_bytes(&book), numbers, due_in(rows_due(few), numbers / REMBILUNG_NUMBERS));
    }
}

static void every_length(void) {
    for (size_t count = 0; count <= FEW_ROWS; count++) {
        make_book(&book, few, count);
        write_in_every_length(count);
        write_with_more(count);
        read_in_every_room(count);
    }
}

/* The book's own rows, in room that is just enough, one too short and one too long. */
static void both_ways(const uint32_t *rows) {
    size_t numbers = REMBILUNG_NUMBERS_OF(book.rows), length = book_bytes(&book).length;
    case_begins("write_book of %zu rows, %zu bytes", book.rows, length);
    expect_write_book(row_bytes(rows, book.rows), numbers, length, book_due());
    expect_write_book(row_bytes(rows, book.rows), numbers, length - 1, refused(8, (uint32_t)length));
    expect_write_book(row_bytes(rows, book.rows), numbers, length + 1, book_due());
    case_begins("read_book of %zu rows, %zu bytes", book.rows, length);
    expect_read_book(book_bytes(&book), numbers, rows_due(rows));
    expect_read_book(book_bytes(&book), numbers + REMBILUNG_NUMBERS, rows_due(rows));
    if (book.rows > 0)
        expect_read_book(book_bytes(&book), numbers - 1, refused(8, (uint32_t)book.rows));
}

/* Reading a book and looking for a row of it that fails refuse alike, although every row of these fails. */
static void refused_as(Bytes bytes, size_t numbers, Answer due) {
    Sheet t = sheet_t();
    expect_read_book(bytes, numbers, due);
    expect_first_failing(sheet_bytes(&t), bytes, due);
}

static void one_too_many(void) {
    make_book(&book, many, MOST + 1);
    case_begins("write_book of 201 rows");
    expect_write_book(row_bytes(many, MOST + 1), REMBILUNG_NUMBERS_OF(MOST + 1), BOOK_LENT_MOST, refused(10, 201));
    case_begins("read_book of 201 rows");
    refused_as(book_bytes(&book), REMBILUNG_NUMBERS_OF(MOST + 1), refused(10, 201));
}

static void put_many(void) {
    for (size_t r = 0; r <= MOST; r++)
        memcpy(many + REMBILUNG_NUMBERS_OF(r), few + REMBILUNG_NUMBERS_OF(r % FEW_ROWS), sizeof longest_job);
}

static void every_count(void) {
    put_many();
    for (size_t count = 0; count <= MOST; count++) {
        make_book(&book, many, count);
        both_ways(many);
    }
    one_too_many();
}

/* Its rows have 42 bytes each, the greatest length of a job file, and its count has two. */
static void longest_book(void) {
    for (size_t r = 0; r < MOST; r++)
        memcpy(many + REMBILUNG_NUMBERS_OF(r), longest_job, sizeof longest_job);
    make_book(&book, many, MOST);
    case_begins("the greatest lengths that the header gives");
    if (book_bytes(&book).length != 8402 || REMBILUNG_BOOK_MOST != 8402 || REMBILUNG_BOOK_ROWS_MOST != 200)
        differs("the longest book has %zu bytes in %d rows", book_bytes(&book).length, MOST);
    both_ways(many);
    case_begins("write_book of the longest book, buffer of 8401");
    expect_write_book(row_bytes(many, MOST), REMBILUNG_NUMBERS_OF(MOST), 8401, refused(8, 8402));
}

static void damaged_at(Bytes bytes, size_t offset) {
    refused_as(bytes, REMBILUNG_NUMBERS_OF(FEW_ROWS), refused(9, (uint32_t)offset));
}

/* A season with no rows, whose book has no bytes; what is written of no rows is another book, of one byte. */
static void empty_season(void) {
    static const uint8_t no_rows[] = {0x00};
    Bytes none = {NULL, 0};
    for (size_t numbers = 0; numbers <= 2 * REMBILUNG_NUMBERS; numbers++) {
        case_begins("read_book of no bytes, room for %zu numbers", numbers);
        expect_read_book(none, numbers, gives(0, none));
    }
    case_begins("write_book of the rows that a book of no bytes has");
    expect_write_book(none, 0, REMBILUNG_BOOK_MOST, gives(1, (Bytes){no_rows, sizeof no_rows}));
}

/* The number that is cut, or that would have come next, is named; cut to nothing, a book is that of an empty season. */
static void cut_at_every_byte(void) {
    size_t whole = 0;
    for (size_t length = 1; length < book_bytes(&book).length; length++) {
        if (book.offset[whole + 1] <= length)
            whole++;
        case_begins("a book of %d rows cut to %zu bytes", FEW_ROWS, length);
        damaged_at((Bytes){book.bytes, length}, book.offset[whole]);
    }
}

/* One byte to many behind, of one kind: the first is named whatever it is. */
static void extended(uint8_t with) {
    uint8_t bytes[1024];
    Bytes whole = book_bytes(&book);
    memset(bytes, with, sizeof bytes);
    memcpy(bytes, whole.at, whole.length);
    for (size_t length = whole.length + 1; length <= sizeof bytes; length += length < whole.length + 8 ? 1 : 79) {
        case_begins("a book of %zu rows and %zu bytes %02x (hexadecimal)", book.rows, length - whole.length, with);
        damaged_at((Bytes){bytes, length}, whole.length);
    }
}

/* Number 0 is the count; 4294967295 is above every count and in no field's range. */
static void damaged(size_t number, const Damage *damage) {
    static uint8_t bytes[BOOK_ROOM];
    size_t length = replaced(book_bytes(&book), book.offset[number], book.offset[number + 1], damage, bytes);
    Answer great = number == 0 ? refused(10, UINT32_MAX) : refused(11, (uint32_t)((number - 1) % FEW_ROWS));
    Answer due = damage->is_number ? great : refused(9, (uint32_t)book.offset[number]);
    case_begins("a book of %d rows with number %zu, counted from the row count, as %s (hexadecimal)", FEW_ROWS, number,
                damage->what);
    refused_as((Bytes){bytes, length}, REMBILUNG_NUMBERS_OF(FEW_ROWS), due);
}

static void damaged_in_every_way(size_t number) {
    for (size_t d = 0; d < DAMAGES; d++)
        damaged(number, &damages[d]);
}

/* The last number is damaged too, and the first of the two is named. */
static void first_of_two(size_t number) {
    static uint8_t one[BOOK_ROOM], two[BOOK_ROOM];
    size_t last = REMBILUNG_NUMBERS_OF(FEW_ROWS);
    if (number == last)
        return;
    size_t length = replaced(book_bytes(&book), book.offset[last], book.offset[last + 1], &damages[0], one);
    length = replaced((Bytes){one, length}, book.offset[number], book.offset[number + 1], &damages[0], two);
    case_begins("a book of %d rows with number %zu, counted from the row count, and its last damaged", FEW_ROWS, number);
    damaged_at((Bytes){two, length}, book.offset[number]);
}

static void every_number(void) {
    for (size_t number = 0; number <= REMBILUNG_NUMBERS_OF(FEW_ROWS); number++) {
        damaged_in_every_way(number);
        first_of_two(number);
    }
}

/* A long book that ends where a column begins lacks that column's first number. */
static void without_columns(void) {
    make_book(&book, many, MOST);
    for (size_t k = 0; k < REMBILUNG_NUMBERS; k++) {
        size_t length = offset_in_book(&book, 0, k);
        case_begins("a book of %d rows without column %zu and what follows it", MOST, k + 1);
        refused_as((Bytes){book.bytes, length}, REMBILUNG_NUMBERS_OF(MOST), refused(9, (uint32_t)length));
        refused_as((Bytes){book.bytes, length - 1}, REMBILUNG_NUMBERS_OF(MOST),
                   refused(9, (uint32_t)(k == 0 ? 0 : offset_in_book(&book, MOST - 1, k - 1))));
    }
}

static void extended_by_all(void) {
    static const uint8_t behind[] = {0x00, 0x01, 0x80, 0xFF};
    for (size_t k = 0; k < sizeof behind; k++)
        extended(behind[k]);
}

/* As a host declares its rows, and works out how many numbers there are. */
static void numbers_of(void) {
    static uint32_t rows[REMBILUNG_NUMBERS_OF(REMBILUNG_BOOK_ROWS_MOST)];
    case_begins("REMBILUNG_NUMBERS_OF");
    if (sizeof rows != 20000 || sizeof(REMBILUNG_NUMBERS_OF(1)) != sizeof(size_t))
        differs("200 rows have %zu bytes, and a length has %zu", sizeof rows, sizeof(REMBILUNG_NUMBERS_OF(1)));
    if (REMBILUNG_NUMBERS_OF(0) != 0 || REMBILUNG_NUMBERS_OF(2 + 1) != 75 || 100 / REMBILUNG_NUMBERS_OF(2) != 2)
        differs("a sum as its argument, or a quotient of it, comes out wrong");
    if (REMBILUNG_NUMBERS_OF(UINT32_MAX) / 25 != UINT32_MAX)
        differs("it is cut to 32 bits");
}

void test_books(void) {
    put_few(few);
    numbers_of();
    every_length();
    every_count();
    longest_book();
    empty_season();
    without_columns();
    make_book(&book, few, 0);
    extended_by_all();
    make_book(&book, few, FEW_ROWS);
    extended_by_all();
    cut_at_every_byte();
    every_number();
}
