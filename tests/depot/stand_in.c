/* Stands in for the library: accepts every job, and its report is what the environment's REPORT says, its answer on two jobs the
 * numbers that OUTCOMES has, and on load cells' records the result and then the numbers that CELLS has; on a book the result and
 * then the numbers that FIRST has, and to reading and writing one what ROWS and WRITTEN have. It judges nothing. */
#include <stdlib.h>
#include <string.h>

#include "rembilung.h"

static uint64_t zeros(uint8_t *file, size_t file_len, uint64_t numbers) {
    memset(file, 0, file_len);
    return numbers;
}

uint64_t rembilung_write_job(const uint32_t numbers[REMBILUNG_NUMBERS], uint8_t *file, size_t file_len) {
    (void)numbers;
    return zeros(file, file_len, REMBILUNG_NUMBERS);
}

uint64_t rembilung_write_support(const uint32_t numbers[REMBILUNG_SUPPORT_NUMBERS], uint8_t *file, size_t file_len) {
    (void)numbers;
    return zeros(file, file_len, REMBILUNG_SUPPORT_NUMBERS);
}

uint64_t rembilung_read_job(const uint8_t *file, size_t file_len, uint32_t numbers[REMBILUNG_NUMBERS]) {
    (void)file;
    (void)file_len;
    memset(numbers, 0, REMBILUNG_NUMBERS * sizeof numbers[0]);
    return REMBILUNG_NUMBERS;
}

static uint64_t result_in(const char *name, uint64_t otherwise) {
    const char *text = getenv(name);
    return text == NULL ? otherwise : strtoull(text, NULL, 10);
}

uint64_t rembilung_write_book(const uint32_t *rows, size_t numbers, uint8_t *book, size_t book_len) {
    (void)rows;
    return zeros(book, book_len, result_in("WRITTEN", numbers));
}

/* Reads every byte of the book, as the library may. */
uint64_t rembilung_read_book(const uint8_t *book, size_t book_len, uint32_t *rows, size_t numbers) {
    volatile uint8_t byte = 0;
    (void)rows;
    (void)numbers;
    for (size_t k = 0; k < book_len; k++)
        byte = book[k];
    (void)byte;
    return result_in("ROWS", 0);
}

uint64_t rembilung_verdict(const uint8_t *sheet, size_t sheet_len, const uint8_t *file, size_t file_len, uint8_t *report,
                           size_t report_len) {
    const char *text = getenv("REPORT");
    size_t length = text == NULL ? 0 : strlen(text);
    (void)sheet;
    (void)sheet_len;
    (void)file;
    (void)file_len;
    if (length > report_len)
        length = report_len;
    if (length > 0)
        memcpy(report, text, length);
    return length;
}

uint64_t rembilung_between(const uint8_t *sheet, size_t sheet_len, const uint32_t mild[REMBILUNG_NUMBERS],
                           const uint32_t harsh[REMBILUNG_NUMBERS], uint32_t answer[REMBILUNG_BETWEEN_NUMBERS]) {
    const char *at = getenv("OUTCOMES");
    uint64_t count = 0;
    (void)sheet;
    (void)sheet_len;
    (void)mild;
    (void)harsh;
    while (at != NULL && *at != '\0' && count < REMBILUNG_BETWEEN_NUMBERS) {
        char *end;
        answer[count++] = (uint32_t)strtoul(at, &end, 10);
        at = end;
    }
    return count;
}

uint64_t rembilung_cells(const uint8_t *records, size_t records_len, uint32_t w, uint8_t *out, size_t out_len) {
    const char *at = getenv("CELLS");
    char *end = NULL;
    uint64_t result = at == NULL ? 0 : strtoull(at, &end, 10);
    (void)records;
    (void)records_len;
    (void)w;
    for (size_t k = 0; at != NULL && *end != '\0' && k + 4 <= out_len; k += 4) {
        uint32_t number = (uint32_t)strtoul(end, &end, 10);
        for (size_t byte = 0; byte < 4; byte++)
            out[k + byte] = (uint8_t)(number >> (8 * byte));
    }
    return result;
}

uint64_t rembilung_first_failing(const uint8_t *sheet, size_t sheet_len, const uint8_t *book, size_t book_len,
                                 uint32_t answer[REMBILUNG_FIRST_FAILING_NUMBERS]) {
    const char *at = getenv("FIRST");
    char *end = NULL;
    uint64_t result = at == NULL ? 0 : strtoull(at, &end, 10);
    (void)sheet;
    (void)sheet_len;
    (void)book;
    (void)book_len;
    for (size_t k = 0; at != NULL && *end != '\0' && k < REMBILUNG_FIRST_FAILING_NUMBERS; k++)
        answer[k] = (uint32_t)strtoul(end, &end, 10);
    return result;
}
