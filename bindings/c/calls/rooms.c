#include "rooms.h"

#include <inttypes.h>
#include <stdio.h>

uint8_t rooms_bytes[MOST_LIST];
uint16_t rooms_shorts[MOST_LIST];
uint64_t rooms_numbers[MOST_LIST];

size_t rooms_take(struct input *input)
{
    size_t length = input_length(input, MOST_LIST);
    for (size_t i = 0; i < length; i++) {
        rooms_bytes[i] = (uint8_t)(i + 1);
        rooms_shorts[i] = (uint16_t)(i + 1);
        rooms_numbers[i] = i + 1;
    }
    return length;
}

void rooms_print_bytes(size_t length)
{
    for (size_t i = 0; i < length; i++)
        printf(" %u", rooms_bytes[i]);
}

void rooms_print_shorts(size_t length)
{
    for (size_t i = 0; i < length; i++)
        printf(" %u", rooms_shorts[i]);
}

void rooms_print_numbers(const uint64_t *numbers, size_t length)
{
    for (size_t i = 0; i < length; i++)
        printf(" %" PRIu64, numbers[i]);
}
