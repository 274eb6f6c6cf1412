/* The faults of a book that can meet in one call, and which of them is refused first. */
#include "book_faults.h"

#include <string.h>

#include "damage.h"

/* The count by its two faults: 3, 3 in a longer form, 201, 201 in a longer form. */
static const Damage counts[] = {
    {"3", {0x03}, 1, 1}, {"3", {0x83, 0x00}, 2, 0}, {"201", {0xC9, 0x01}, 2, 1}, {"201", {0xC9, 0x81, 0x00}, 3, 0}};

void spoil_row(uint32_t *rows) {
    rows[REMBILUNG_NUMBERS_OF(1)] = rows[REMBILUNG_NUMBERS_OF(2) - 1] = 0;
}

/* A damaged number stands between the bad row's first and last. The count is replaced last, since that moves the others. */
void put_faulty(const uint32_t *rows, int faults, FaultyBook *to) {
    static uint8_t behind_count[BOOK_ROOM];
    static Book book;
    size_t middle = REMBILUNG_NUMBERS_OF(FEW_ROWS) / 2;
    make_book(&book, rows, FEW_ROWS);
    Bytes whole = book_bytes(&book);
    memcpy(behind_count, whole.at, whole.length);
    to->damaged_at = book.offset[middle];
    if (faults & DAMAGED)
        whole.length = replaced(whole, book.offset[middle], book.offset[middle + 1], &damages[0], behind_count);
    behind_count[whole.length] = 0x01;
    whole.length += faults & EXTRA ? 1 : 0;
    to->length = replaced((Bytes){behind_count, whole.length}, 0, 1, &counts[faults & (COUNT_DAMAGED | COUNT_HIGH)], to->bytes);
}

Answer faulty_due(int faults, const FaultyBook *book) {
    if (faults & COUNT_DAMAGED)
        return refused(9, 0);
    if (faults & COUNT_HIGH)
        return refused(10, 201);
    if (faults & DAMAGED)
        return refused(9, (uint32_t)book->damaged_at);
    if (faults & EXTRA)
        return refused(9, (uint32_t)book->length - 1);
    return faults & BAD_ROW ? refused(11, 1) : refused(0, 0);
}
