#include "random.h"

static uint64_t state = 20240601;

/* A linear congruential sequence, with its high bits, which are the good ones, folded onto the low. */
uint64_t random_number(void)
{
    state = state * 6364136223846793005u + 1442695040888963407u;
    return state ^ state >> 29;
}

size_t random_below(size_t end)
{
    return (size_t)((random_number() >> 8) % end);
}

void random_fill(uint8_t *bytes, size_t length)
{
    for (size_t i = 0; i < length; i++)
        bytes[i] = (uint8_t)(random_number() >> 24);
}
