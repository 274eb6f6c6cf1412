/* The commands that make a column sheet from text, and show one as text. */
#include <stdio.h>

#include "commands.h"
#include "explain.h"
#include "files.h"
#include "refuse.h"
#include "rembilung.h"
#include "sheet.h"
#include "sheet_text.h"
#include "status.h"

/* Starts a message on a word of the text: its line, the entry it would be, and the word. */
static void say_word(const Word *word, size_t entry) {
    Text shown = {{0}, 0};
    text_add_shown(&shown, word->bytes, word->length);
    fprintf(stderr, "rembilung: line %zu: entry %zu, '%s', ", word->line, entry, shown.bytes);
}

static int refuse_count(size_t count) {
    print_refused(1, count < UINT32_MAX ? (uint32_t)count : UINT32_MAX);
    fprintf(stderr, "rembilung: the text has %zu numbers, and a column sheet has %d\n", count, SHEET_ENTRIES);
    return flush_stdout() ? REFUSED : UNUSABLE;
}

static int refuse_entry(const SheetText *text, uint64_t result) {
    uint32_t refusal = rembilung_refusal(result), k = rembilung_place(result);
    if (refusal != 2 || k >= SHEET_ENTRIES)
        return refuse(result, &scaffold, NULL);
    print_refused(refusal, k);
    say_word(&text->words[k], k);
    fprintf(stderr, "cannot stand there: %s\n", entry_rule);
    return flush_stdout() ? REFUSED : UNUSABLE;
}

/* Refusal 1 counts entries, as the text has them and no bytes; refusal 2 is the library's. */
static int pack(const SheetText *text, const char *path) {
    if (text->count != SHEET_ENTRIES)
        return refuse_count(text->count);
    uint64_t checked = check_sheet(text->sheet, sizeof text->sheet);
    if (rembilung_refused(checked))
        return refuse_entry(text, checked);
    return save_file(path, text->sheet, sizeof text->sheet) ? JUDGED : UNUSABLE;
}

static int pack_file(char **paths) {
    static uint8_t bytes[FILE_ROOM];
    static SheetText text;
    size_t length;
    if (!read_file(paths[0], bytes, &length))
        return UNUSABLE;
    if (read_sheet_text((const char *)bytes, length, &text))
        return pack(&text, paths[1]);
    say_word(&text.bad, text.count);
    fputs("is not a whole number; digits alone are read\n", stderr);
    return UNUSABLE;
}

int pack_sheet(Words words) {
    return run_on_files(words, 2, "pack-sheet", "a text and a new file", pack_file);
}

static int show(const Sheet *sheet) {
    uint64_t checked = check_sheet(sheet->bytes, sheet->length);
    if (rembilung_refused(checked))
        return refuse(checked, &scaffold, NULL);
    print_sheet_text(stdout, sheet->bytes);
    return flush_stdout() ? JUDGED : UNUSABLE;
}

/* The sheet that is named, or else the example sheet C, so that it can be compared with the printed code. */
static int show_named(const Words *words) {
    static Sheet sheet;
    if (words->count == 0)
        example_sheet(&sheet);
    else if (!read_sheet(&sheet, words->words[0]))
        return UNUSABLE;
    return show(&sheet);
}

int show_sheet(Words words) {
    int help = 0;
    const Option options[] = {{"--help", NULL, &help}};
    if (!take_options(&words, options, 1))
        return UNUSABLE;
    if (help)
        return show_usage();
    return words.count <= 1 || count_is(&words, 1, "show-sheet", "a column sheet") ? show_named(&words) : UNUSABLE;
}
