/* A load cell's run as a picture of few lines, a bar each. */
#ifndef PICTURE_H
#define PICTURE_H

#include <stddef.h>
#include <stdint.h>
#include <stdio.h>

enum { PICTURE_LINES_MOST = 60 };

typedef struct {
    size_t count;                        /* records in the run */
    uint32_t of_line;                    /* records of a line; the last may have fewer */
    size_t lines;
    uint32_t pushes[PICTURE_LINES_MOST]; /* the greatest push of each line's records, N */
    uint32_t longest;                    /* the greatest of these, N */
} Picture;

/* Lines of w records each, or of the least multiple of w with which the lines are not too many, from a run that the library
 * does not refuse. 0 where the library's answer is none. */
int make_picture(Picture *picture, const uint8_t *records, size_t count, uint32_t w);

void print_picture(FILE *to, const Picture *picture);

#endif
