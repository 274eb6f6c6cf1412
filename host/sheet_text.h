/* A column sheet as text: its entries in order, between commas, semicolons, spaces, tabs or line ends. */
#ifndef SHEET_TEXT_H
#define SHEET_TEXT_H

#include <stddef.h>
#include <stdint.h>
#include <stdio.h>

#include "number.h"
#include "rembilung.h"

#define SHEET_ENTRIES (REMBILUNG_SHEET_BYTES / 2)

/* A word of the text, and the line it stands on. */
typedef struct {
    const char *bytes;
    size_t length;
    size_t line;
} Word;

typedef struct {
    size_t count;                        /* how many numbers the text has */
    Word words[SHEET_ENTRIES];           /* those that are entries */
    uint8_t sheet[REMBILUNG_SHEET_BYTES]; /* what they pack to; above 65,535, which no entry can be, stands 65,535 */
    Word bad;                            /* the first word that is no whole number, where there is one */
} SheetText;

/* From # to the line's end is a remark, and a byte order mark may stand first. 1 where every word is a whole number; the
 * words point into the bytes lent. */
int read_sheet_text(const char *bytes, size_t length, SheetText *text);

/* Ten entries a line, with the slenderness of the first and the last as a remark. */
void print_sheet_text(FILE *to, const uint8_t *sheet);

#endif
