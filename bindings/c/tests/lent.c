#include "lent.h"

#include <stdlib.h>
#include <string.h>

#define GUARD 64

struct lent lent_new(size_t size)
{
    struct lent lent = { malloc(size + 2 * GUARD), malloc(size + 2 * GUARD), size };
    if (lent.memory == NULL || lent.before == NULL)
        abort();
    memset(lent.memory, 0xA5, size + 2 * GUARD);
    lent_keep(&lent);
    return lent;
}

void lent_free(struct lent *lent)
{
    free(lent->memory);
    free(lent->before);
}

void *lent_list(const struct lent *lent)
{
    return lent->memory + GUARD;
}

void lent_keep(const struct lent *lent)
{
    memcpy(lent->before, lent->memory, lent->size + 2 * GUARD);
}

bool lent_is_same(const struct lent *lent)
{
    return memcmp(lent->before, lent->memory, lent->size + 2 * GUARD) == 0;
}

bool lent_is_guarded(const struct lent *lent)
{
    size_t end = GUARD + lent->size;
    return memcmp(lent->before, lent->memory, GUARD) == 0 && memcmp(lent->before + end, lent->memory + end, GUARD) == 0;
}
