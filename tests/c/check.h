/* Counts cases and failures, and says what differs. */
#ifndef CHECK_H
#define CHECK_H

/* Names the case that runs from here on; a failure is said with its name, which has the input. */
void case_begins(const char *format, ...);
void differs(const char *format, ...);
/* Says the last line; 0 where nothing failed. */
int cases_end(void);
/* From here on memory that was not lent, once touched, is a failure with the case's name. */
void watch_memory(void);

#endif
