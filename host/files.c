/* Reads a file whole or piece by piece, and writes one that was not there; says on standard error why it cannot. */
#include "files.h"

#include <errno.h>
#include <string.h>

int cannot(const char *what, const char *path, int why) {
    fprintf(stderr, "rembilung: cannot %s '%s': %s\n", what, path, strerror(why));
    return 0;
}

int read_front(const char *path, uint8_t *bytes, size_t room, size_t *length, int *more) {
    FILE *from = fopen(path, "rb");
    if (from == NULL)
        return cannot("read", path, errno);
    *length = fread(bytes, 1, room, from);
    int why = ferror(from) ? errno : 0;
    *more = why == 0 && getc(from) != EOF;
    fclose(from);
    return why == 0 ? 1 : cannot("read", path, why);
}

int read_file(const char *path, uint8_t *bytes, size_t *length) {
    int more = 0;
    if (!read_front(path, bytes, FILE_ROOM, length, &more))
        return 0;
    if (more)
        fprintf(stderr, "rembilung: '%s' has more than %d bytes, and is no column sheet or job file\n", path, FILE_ROOM);
    return !more;
}

int open_input(Input *input, const char *path, const volatile sig_atomic_t *stop) {
    input->path = path;
    input->stop = stop;
    input->why = 0;
    input->from = strcmp(path, "-") == 0 ? stdin : fopen(path, "rb");
    return input->from != NULL ? 1 : cannot("read", path, errno);
}

size_t more_of_input(void *from, char *into, size_t room) {
    Input *input = from;
    if ((input->stop != NULL && *input->stop != 0) || input->why != 0)
        return 0;
    size_t taken = fread(into, 1, room, input->from);
    if (ferror(input->from))
        input->why = errno;
    return taken;
}

int open_output(Output *output, const char *path) {
    output->path = path;
    /* x: a file that is there is never written over. */
    output->to = path == NULL ? stdout : fopen(path, "wbx");
    return output->to != NULL ? 1 : cannot("write", path, errno);
}

int flush_stdout(void) {
    if (fflush(stdout) == 0 && !ferror(stdout))
        return 1;
    perror("rembilung: cannot write to standard output");
    return 0;
}

int close_output(Output *output, int keep) {
    if (output->path == NULL)
        return flush_stdout();
    int whole = fflush(output->to) == 0 && !ferror(output->to);
    int why = errno;
    if (fclose(output->to) != 0 && whole) {
        whole = 0;
        why = errno;
    }
    /* Half a file is worse than none. */
    if (!whole || !keep)
        remove(output->path);
    return whole ? 1 : cannot("write", output->path, why);
}

int save_file(const char *path, const uint8_t *bytes, size_t length) {
    Output output;
    if (!open_output(&output, path))
        return 0;
    fwrite(bytes, 1, length, output.to);
    return close_output(&output, 1);
}
