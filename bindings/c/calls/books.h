/* Books in the input, and what a call changed in one. */
#ifndef BOOKS_H
#define BOOKS_H

#include "../../../include/loft.h"
#include "input.h"

/* The book at the input's start, of either version, as one of version 2: a book of version 1 has numbers equal to places
 * below the count and 0 from there on, and the count for its next number. What is no book makes the input bad. */
void books_take(struct input *input, uint8_t book[LOFT_BOOK]);

/* Prints ` same`, or count, serial, next number and all words of each place of which a byte differs. */
void books_print(const uint8_t before[LOFT_BOOK], const uint8_t after[LOFT_BOOK]);

#endif
