/* The answer due of a book's first failing row, from what is known of each row by itself. */
#ifndef FAILING_H
#define FAILING_H

#include "paper.h"

/* The row, with those before it and itself judged; or none, with all of so many. They stand until the next answer is made. */
Answer fails_first_at(uint32_t row);
Answer none_fails_of(uint32_t count);

/* Whether the whole call's report on a row, which it has to accept, shows a failed check: a verdict of 2. */
int row_fails(Bytes sheet, const uint32_t *numbers);

#endif
