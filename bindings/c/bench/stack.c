#define _POSIX_C_SOURCE 200809L

#include "bench.h"

#include "../tests/expect.h"

#include <pthread.h>
#include <stdint.h>
#include <stdlib.h>
#include <string.h>

#define STACK (1 << 20)
#define PAINT 0x5A

static void nothing(void)
{
}

static void *called(void *call)
{
    (*(void (**)(void))call)();
    return NULL;
}

/* How much of a painted stack a thread has written over that makes the call once. */
static size_t stack_of_thread(void (*call)(void))
{
    pthread_t thread;
    pthread_attr_t attributes;
    uint8_t *stack = aligned_alloc(4096, STACK);
    size_t untouched = 0;
    expect(stack != NULL, "memory for a stack");
    memset(stack, PAINT, STACK);
    pthread_attr_init(&attributes);
    pthread_attr_setstack(&attributes, stack, STACK);
    expect(pthread_create(&thread, &attributes, called, &call) == 0, "a thread");
    pthread_join(thread, NULL);
    while (untouched < STACK && stack[untouched] == PAINT)
        untouched++;
    pthread_attr_destroy(&attributes);
    free(stack);
    return STACK - untouched;
}

size_t stack_of(void (*call)(void))
{
    return stack_of_thread(call) - stack_of_thread(nothing);
}
