/* The parts of the bench. */
#ifndef BENCH_H
#define BENCH_H

#include <stddef.h>

/* A line for each call: microseconds, and bytes of stack. */
int bench_calls(void);

/* A day file on standard input in pieces of so many bytes. */
int bench_day(size_t size);

/* The bytes of stack that a call takes. */
size_t stack_of(void (*call)(void));

#endif
