/* A test ends with 1 at the first thing that isn't as expected. */
#ifndef EXPECT_H
#define EXPECT_H

#include <stdbool.h>

/* Says what failed, in the form of printf, unless `is_so`. */
void expect(bool is_so, const char *form, ...) __attribute__((format(printf, 2, 3)));

/* How often something was expected so far. */
unsigned long expected(void);

#endif
