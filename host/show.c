/* The command that shows a job file as named numbers. */
#include <inttypes.h>
#include <stdio.h>

#include "commands.h"
#include "fields.h"
#include "files.h"
#include "refuse.h"
#include "rembilung.h"
#include "status.h"

static int show_numbers(const Kind *kind, const uint32_t *numbers) {
    for (int k = 0; k < kind->count; k++)
        printf("%4d  %s: %" PRIu32 "  [%s]\n", k + 1, kind->fields[k].name, numbers[k], kind->fields[k].range);
    return flush_stdout() ? JUDGED : UNUSABLE;
}

static int show_file(char **paths) {
    static uint8_t file[FILE_ROOM];
    uint32_t numbers[REMBILUNG_NUMBERS];
    size_t length;
    if (!read_file(paths[0], file, &length))
        return UNUSABLE;
    const Kind *kind = kind_of_file(file, length);
    uint64_t read = rembilung_read_job(file, length, numbers);
    return rembilung_refused(read) ? refuse(read, kind, NULL) : show_numbers(kind, numbers);
}

int show_job(Words words) {
    return run_on_files(words, 1, "show", "the job file", show_file);
}
