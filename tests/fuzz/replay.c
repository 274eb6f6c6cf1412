/* Stands in for libFuzzer: takes each file named through a harness once. The last line counts cases and failures. */
#include "fuzz.h"

#define ROOM 1048576

int main(int count, char **paths) {
    static uint8_t bytes[ROOM];
    int failures = count < 2;
    for (int k = 1; k < count; k++) {
        FILE *from = fopen(paths[k], "rb");
        if (from == NULL) {
            printf("FAILED: cannot read %s\n", paths[k]);
            failures++;
            continue;
        }
        /* Exactly as long as the file, so that a sanitizer sees a byte read beyond it. */
        size_t length = fread(bytes, 1, ROOM, from);
        uint8_t *exact = malloc(length > 0 ? length : 1);
        MUST(exact != NULL);
        memcpy(exact, bytes, length);
        fclose(from);
        LLVMFuzzerTestOneInput(exact, length);
        free(exact);
    }
    printf("%d cases, %d failures\n", count - 1, failures);
    return failures != 0;
}
