/* A text of bounded length, built piece by piece, for messages; what does not fit is cut off. */
#ifndef TEXT_H
#define TEXT_H

#include <stddef.h>

/* Longer than any message that the program makes. */
#define TEXT_ROOM 1024
/* No byte of what is shown after these changes what is shown of it. */
#define SHOWN_ROOM 44

/* Always closed by a zero byte; an empty one is made by {0}. */
typedef struct {
    char bytes[TEXT_ROOM];
    size_t length;
} Text;

#if defined(__GNUC__)
__attribute__((format(printf, 2, 3)))
#endif
void text_add(Text *text, const char *format, ...);

/* Adds what stands in a file as a message may show it: printable characters of ASCII and UTF-8 as they are, every other
 * byte as \x and two hexadecimal digits, and of a long one the front alone. */
void text_add_shown(Text *text, const char *bytes, size_t length);

#endif
