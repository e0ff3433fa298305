#include "expect.h"

#include <stdarg.h>
#include <stdio.h>
#include <stdlib.h>

static unsigned long count;

void expect(bool is_so, const char *form, ...)
{
    va_list words;
    count++;
    if (is_so)
        return;
    va_start(words, form);
    fprintf(stderr, "not as expected: ");
    vfprintf(stderr, form, words);
    fprintf(stderr, "\n");
    va_end(words);
    exit(1);
}

unsigned long expected(void)
{
    return count;
}
