/* Sends one list through one version once, for an instruction counter to watch: count VERSION LIST. */
#include <stdio.h>
#include <stdlib.h>

#include "calls.h"

static void usage(void) {
    fprintf(stderr, "usage: count compare | list | VERSION LIST (VERSION 0 to %d, LIST 0 to %d)\n", version_count - 1,
            LISTS - 1);
    exit(2);
}

static int number(const char *word, int most) {
    char *end;
    long value = strtol(word, &end, 10);
    if (*word == '\0' || *end != '\0' || value < 0 || value > most)
        usage();
    return (int)value;
}

static const char *kind_of(int which) {
    return which >= PART_LISTS + PAIR_PARTS ? "book parts"
           : which >= PART_LISTS            ? "parts"
           : which >= FAILING_LISTS         ? "failing"
           : which >= CELL_LISTS            ? "cells"
           : which >= PAIR_LISTS            ? "pairs"
           : which >= BOOK_LISTS            ? "books"
                                            : "calls";
}

/* A list, for the scripts: name, kind, call, inputs, share of the mix, bytes of a book, records of a run, rows of a book with a
 * first failing row, whether it has an aim. */
static void show_list(int which) {
    List list = list_of(which);
    double bytes = book_class_of(which) == NULL ? 0 : bytes_of(which);
    int records = cell_class_of(which) == NULL ? 0 : cell_class_of(which)->records;
    int rows = failing_class_of(which) == NULL ? 0 : failing_class_of(which)->rows;
    printf("list;%s;%s;%s;%d;%d;%.0f;%d;%d;%d\n", list.name, kind_of(which), list.call, list.count, share_of(which), bytes,
           records, rows, has_aim(which));
}

static void show_versions(void) {
    for (int v = 0; v < version_count; v++)
        printf("version;%s\n", versions[v].name);
}

static int show_lists(void) {
    show_versions();
    for (int k = 0; k < LISTS; k++)
        show_list(k);
    return 0;
}

int main(int words, char **word) {
    if (words == 2 && word[1][0] == 'l') {
        make_all();
        return show_lists();
    }
    if (words == 2 && word[1][0] == 'c') {
        make_and_compare();
        return 0;
    }
    if (words != 3)
        usage();
    make_all();
    List list = list_of(number(word[2], LISTS - 1));
    volatile uint64_t sum = send(&versions[number(word[1], list.versions - 1)], &list, 1);
    (void)sum;
    return 0;
}
