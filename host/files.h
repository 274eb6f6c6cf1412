/* Reads a file whole or piece by piece, and writes one that was not there. */
#ifndef FILES_H
#define FILES_H

#include <signal.h>
#include <stddef.h>
#include <stdint.h>
#include <stdio.h>

/* More than any column sheet, job file or run of load cells' records, so that whatever is longer is none of them. */
#define FILE_ROOM 1048576

/* A file that is read piece by piece; the path '-' is standard input. */
typedef struct {
    FILE *from;
    const char *path;
    const volatile sig_atomic_t *stop; /* where it is not 0, no more is read; null where nothing stops it */
    int why;                           /* why it could not be read on, or 0 */
} Input;

/* Where output goes: standard output, or a file that was not there. A null path is standard output. */
typedef struct {
    FILE *to;
    const char *path;
} Output;

/* Each is 1 where it was done; where it was not, the reason was said on standard error. */
int read_file(const char *path, uint8_t *bytes, size_t *length);
/* As many bytes as there is room for; *more says whether the file goes on. */
int read_front(const char *path, uint8_t *bytes, size_t room, size_t *length, int *more);
int save_file(const char *path, const uint8_t *bytes, size_t length);
int open_input(Input *input, const char *path, const volatile sig_atomic_t *stop);

/* Puts up to room bytes of an Input into a buffer and says how many, 0 at the end. */
size_t more_of_input(void *from, char *into, size_t room);

/* A file that is there is never written over. */
int open_output(Output *output, const char *path);
/* Flushes, and closes a file; one that is not whole, or that is not to be kept, is removed. */
int close_output(Output *output, int keep);

/* 1 where all that was printed has left; where it has not, that was said on standard error. */
int flush_stdout(void);

/* Says on standard error that something cannot be done with a file; the answer is 0. */
int cannot(const char *what, const char *path, int why);

#endif
