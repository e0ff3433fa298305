/* Numbers that look random and are the same in every run. */
#ifndef RANDOM_H
#define RANDOM_H

#include <stddef.h>
#include <stdint.h>

uint64_t random_number(void);

/* Below `end`, which isn't 0. */
size_t random_below(size_t end);

void random_fill(uint8_t *bytes, size_t length);

#endif
