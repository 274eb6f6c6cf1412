/* The calls that judge, on books and on load cells in plain C, to measure the library against: same arguments, answers, bytes. */
#ifndef PLAIN_H
#define PLAIN_H

#include <stddef.h>
#include <stdint.h>

uint64_t plain_verdict(const uint8_t *sheet, size_t sheet_len,
                       const uint8_t *file, size_t file_len,
                       uint8_t *report, size_t report_len);
uint64_t plain_between(const uint8_t *sheet, size_t sheet_len,
                       const uint32_t *mild, const uint32_t *harsh,
                       uint32_t *answer);
uint64_t plain_first_failing(const uint8_t *sheet, size_t sheet_len,
                             const uint8_t *book, size_t book_len,
                             uint32_t *answer);
uint64_t plain_write_book(const uint32_t *rows, size_t numbers,
                          uint8_t *book, size_t book_len);
uint64_t plain_read_book(const uint8_t *book, size_t book_len,
                         uint32_t *rows, size_t numbers);
uint64_t plain_cells(const uint8_t *records, size_t records_len,
                     uint32_t w,
                     uint8_t *out, size_t out_len);

#endif
