/* A refusal of what a command was given. */
#include "refuse.h"

#include <inttypes.h>

#include "explain.h"
#include "files.h"
#include "rembilung.h"
#include "status.h"

void print_refused(uint32_t refusal, uint32_t place) {
    printf("refused %" PRIu32 " %" PRIu32 "\n", refusal, place);
}

int refuse_in_words(uint32_t refusal, uint32_t place, const Text *words) {
    print_refused(refusal, place);
    fprintf(stderr, "rembilung: %s\n", words->bytes);
    return flush_stdout() ? REFUSED : UNUSABLE;
}

int refuse(uint64_t result, const Kind *kind, const uint32_t *numbers) {
    Text words = {{0}, 0};
    explain(&words, result, kind, numbers);
    return refuse_in_words(rembilung_refusal(result), rembilung_place(result), &words);
}

int unknown_answer(void) {
    fputs("rembilung: the library's answer is not one that this program knows\n", stderr);
    return UNUSABLE;
}
