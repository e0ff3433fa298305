/* Lent rooms: place i (from 0) holds i + 1 beforehand, as far as it fits. */
#ifndef ROOMS_H
#define ROOMS_H

#include "input.h"

extern uint8_t rooms_bytes[MOST_LIST];
extern uint16_t rooms_shorts[MOST_LIST];
extern uint64_t rooms_numbers[MOST_LIST];

/* Takes the length of a room and fills one of each width. */
size_t rooms_take(struct input *input);

void rooms_print_bytes(size_t length);
void rooms_print_shorts(size_t length);
void rooms_print_numbers(const uint64_t *numbers, size_t length);

#endif
