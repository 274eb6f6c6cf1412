/* Fuzzes the judging of a table: whatever it is, the answers are a table of one width, and every row is accounted for. */
#define _POSIX_C_SOURCE 200809L
#include "fuzz.h"
#include "sheet.h"
#include "status.h"
#include "table.h"

#define WIDTH 38

static Csv csv, answers;

static uint64_t row_of(void) {
    size_t length;
    const char *bytes = csv_cell(&answers, 0, &length);
    uint64_t row = 0;
    MUST(length > 0 && length < 20);
    for (size_t k = 0; k < length; k++) {
        MUST(bytes[k] >= '0' && bytes[k] <= '9');
        row = 10 * row + (uint64_t)(bytes[k] - '0');
    }
    return row;
}

/* Every row of the answers has the same width, and the row numbers rise; says how many rows there are after the names. */
static uint64_t read_answers(const char *bytes, size_t length) {
    Memory memory = {bytes, length, length + 1};
    uint64_t rows = 0, last = 0;
    open_memory(&answers, &memory);
    CsvResult result = csv_read(&answers);
    if (result == CSV_END)
        return 0;
    MUST(result == CSV_ROW && answers.cells == WIDTH);
    while ((result = csv_read(&answers)) != CSV_END) {
        MUST(result == CSV_ROW && answers.cells == WIDTH);
        MUST(row_of() > last);
        last = row_of();
        rows++;
    }
    return rows;
}

/* Messages have no controls, so that no table can steer the terminal they are shown on. */
static void harmless(const char *said, size_t length) {
    for (size_t k = 0; k < length; k++)
        MUST(said[k] == '\n' || (unsigned char)said[k] >= ' ');
}

static void judge(const char *bytes, size_t length, FILE *out, FILE *said, Table *table) {
    static Sheet sheet;
    static const volatile sig_atomic_t never = 0;
    Memory memory = {bytes, length, length + 1};
    example_sheet(&sheet);
    Table begun = {.rows = {.csv = &csv, .said = said, .columns = {.named = 1}}, .sheet = sheet.bytes,
                   .sheet_length = sheet.length, .out = out, .stop = &never};
    *table = begun;
    rows_open(&table->rows, (Source){more_of_memory, &memory});
    table->status = judge_table(table);
}

int LLVMFuzzerTestOneInput(const uint8_t *data, size_t size) {
    char *written = NULL, *words = NULL;
    size_t written_length = 0, words_length = 0;
    Table table;
    FILE *out = open_memstream(&written, &written_length), *said = open_memstream(&words, &words_length);
    MUST(out != NULL && said != NULL);
    judge((const char *)data, size, out, said, &table);
    MUST(fclose(out) == 0 && fclose(said) == 0);
    uint64_t answered = read_answers(written, written_length), rows = table.rows.count;
    const Tally *tally = &table.tally;
    MUST(tally->pass + tally->fail + all_refused(tally) + tally->unreadable == rows);
    /* A damaged row is answered, and not counted. */
    MUST(answered == rows || (table.status == UNUSABLE && answered == rows + 1));
    MUST(table.status != JUDGED || tally->pass + tally->fail == rows);
    MUST(table.status == JUDGED || words_length > 0);
    harmless(words, words_length);
    free(written);
    free(words);
    return 0;
}
