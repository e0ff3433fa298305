/* A list lent to a call: guard bytes on both sides of it, and all of it kept from before the call. */
#ifndef LENT_H
#define LENT_H

#include <stdbool.h>
#include <stddef.h>
#include <stdint.h>

struct lent {
    uint8_t *memory; /* guard, list, guard */
    uint8_t *before;
    size_t size; /* bytes of the list */
};

struct lent lent_new(size_t size);
void lent_free(struct lent *lent);

/* The list itself; aligned for numbers of 8, and no NULL where it is empty. */
void *lent_list(const struct lent *lent);

void lent_keep(const struct lent *lent);

/* Whether list and guards are as they were kept. */
bool lent_is_same(const struct lent *lent);

/* Whether the guards are, whatever became of the list. */
bool lent_is_guarded(const struct lent *lent);

#endif
