/* The command that packs a depot's table into a season's book. */
#include "commands.h"
#include "files.h"
#include "packing.h"
#include "status.h"

static int pack_table(char **paths) {
    static Packing packing = {.undone = "no book was made", .if_book = "a book already"};
    uint8_t book[REMBILUNG_BOOK_MOST];
    size_t length;
    if (!read_packing(&packing, paths[0]))
        return UNUSABLE;
    int status = make_book(&packing, book, &length);
    if (status != JUDGED)
        return status;
    if (!save_file(paths[1], book, length))
        return UNUSABLE;
    say_number_of_rows(&packing.rows);
    say_passed_over(&packing.rows);
    return JUDGED;
}

int pack_book(Words words) {
    return run_on_files(words, 2, "book pack", "a table and a new file", pack_table);
}
