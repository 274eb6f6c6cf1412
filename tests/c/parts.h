/* The parts of the tests from C; each runs its cases. */
#ifndef PARTS_H
#define PARTS_H

void test_vectors(void);
void test_sheets(void);
void test_files(void);
void test_ranges(void);
void test_order(void);
void test_supports(void);
void test_books(void);
void test_book_order(void);
void test_first(void);
void test_first_order(void);
void test_between(void);
void test_cells(void);
void test_cell_values(void);
/* Where there is no more address space, as under valgrind, counts of 4,294,967,295 rows and more are left out. */
void test_great_lengths(int within_128_gib);

#endif
