/* Counts cases and failures, and says what differs. */
#include "check.h"

#include <signal.h>
#include <stdarg.h>
#include <stdio.h>
#include <stdlib.h>

/* A library that is wrong everywhere need not be told of more often than this. */
enum { SAID_MOST = 40 };

static char name[300];
static unsigned long cases, failures;
static int failed;

void case_begins(const char *format, ...) {
    va_list parts;
    va_start(parts, format);
    vsnprintf(name, sizeof name, format, parts);
    va_end(parts);
    cases++;
    failed = 0;
}

void differs(const char *format, ...) {
    if (!failed)
        failures++;
    failed = 1;
    if (failures > SAID_MOST)
        return;
    printf("FAILED: %s: ", name);
    va_list parts;
    va_start(parts, format);
    vprintf(format, parts);
    va_end(parts);
    printf("\n");
}

int cases_end(void) {
    if (failures > SAID_MOST)
        printf("%lu more cases failed and are not shown\n", failures - SAID_MOST);
    printf("%lu cases, %lu failures\n", cases, failures);
    return failures == 0 && cases > 0 ? 0 : 1;
}

/* Nothing can go on after such a fault, so what is known is said and the program ends. */
static void touched(int signal_number) {
    differs("memory that was not lent was touched (signal %d); the cases after it were not run", signal_number);
    cases_end();
    fflush(stdout);
    _Exit(1);
}

void watch_memory(void) {
    signal(SIGSEGV, touched);
    signal(SIGBUS, touched);
}
