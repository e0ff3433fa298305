/* Read-only lists that lie over one another give the same answers as copies that lie apart. */
#include "books.h"
#include "expect.h"
#include "lent.h"

#include <stdio.h>
#include <string.h>

/* Losses in the book's own bytes, from `at` on, against a copy of them. */
static uint8_t losses_inside(const struct lent *book, size_t at)
{
    const uint8_t *bytes = lent_list(book);
    size_t rows = rows_held(bytes);
    struct lent apart = lent_new(8 * rows), pays = lent_new(32 * rows), others = lent_new(32 * rows);
    uint64_t total = 7, other = 7;
    memcpy(lent_list(&apart), bytes + at, 8 * rows);
    uint8_t wanted = loft_close_out(bytes, LOFT_BOOK, lent_list(&apart), rows, lent_list(&pays), 4 * rows, &total);
    uint8_t got = loft_close_out(bytes, LOFT_BOOK, (const uint64_t *)(const void *)(bytes + at), rows, lent_list(&others), 4 * rows, &other);
    expect(got == wanted && total == other, "losses inside the book at %zu: %u and not %u", at, got, wanted);
    expect(memcmp(lent_list(&pays), lent_list(&others), 32 * rows) == 0, "losses inside the book at %zu: other payments", at);
    expect(lent_is_same(book) && lent_is_guarded(&others), "losses inside the book at %zu: something changed", at);
    lent_free(&apart);
    lent_free(&pays);
    lent_free(&others);
    return got;
}

/* A statement in the book's own bytes. */
static void statement_inside(const struct lent *book, size_t at, size_t length)
{
    const uint8_t *bytes = lent_list(book);
    struct lent apart = lent_new(length);
    memcpy(lent_list(&apart), bytes + at, length);
    uint8_t wanted = loft_statement(bytes, LOFT_BOOK, 1, lent_list(&apart), length);
    uint8_t got = loft_statement(bytes, LOFT_BOOK, 1, bytes + at, length);
    expect(got == wanted, "a statement inside the book at %zu: %u and not %u", at, got, wanted);
    expect(lent_is_same(book), "a statement inside the book at %zu changes it", at);
    lent_free(&apart);
}

/* All four lists of a margin in one memory of small numbers. */
static uint8_t margin_inside(uint8_t number, size_t many)
{
    struct lent all = lent_new(8 * 64);
    uint8_t products[64], sides[64], wanted[LOFT_RECORD] = { 0 }, got[LOFT_RECORD] = { 0 };
    uint64_t notionals[64];
    int64_t figures[4];
    memset(lent_list(&all), 0, all.size);
    for (size_t i = 0; i < many; i++)
        ((uint8_t *)lent_list(&all))[i] = (uint8_t)(number + i) % 4;
    lent_keep(&all);
    memcpy(products, lent_list(&all), sizeof products);
    memcpy(sides, lent_list(&all), sizeof sides);
    memcpy(notionals, lent_list(&all), sizeof notionals);
    memcpy(figures, lent_list(&all), sizeof figures);
    uint8_t apart = loft_margin(1, 2, 3, products, many, sides, many, notionals, many, figures, 4, wanted, LOFT_RECORD);
    uint8_t inside = loft_margin(1, 2, 3, lent_list(&all), many, lent_list(&all), many, lent_list(&all), many, lent_list(&all), 4, got,
                                 LOFT_RECORD);
    expect(apart == inside && memcmp(wanted, got, LOFT_RECORD) == 0, "a margin of lists over one another: %u and not %u", inside, apart);
    expect(lent_is_same(&all), "a margin of lists over one another changes them");
    lent_free(&all);
    return inside;
}

int main(void)
{
    struct lent fresh = lent_new(LOFT_BOOK), small = lent_new(LOFT_BOOK);
    expect(loft_fresh(lent_list(&fresh), LOFT_BOOK) == 0, "a fresh book");
    small_book(lent_list(&small));
    lent_keep(&fresh);
    lent_keep(&small);
    /* Behind the rows held all bytes are 0. The first eight are a number below the ceiling where the serial is 0. */
    expect(losses_inside(&fresh, 24000) == 0, "losses of 0 in a fresh book");
    expect(losses_inside(&small, 24000) == 0, "losses of 0 in a small book");
    expect(losses_inside(&fresh, 0) == 0, "a fresh book's first bytes as a loss");
    expect(losses_inside(&small, 0) == 16, "a small book's first bytes as losses");
    for (size_t at = 0; at < 600; at++)
        statement_inside(&small, at, at % 90);
    expect(margin_inside(0, 1) == 0, "one position of zeros");
    for (size_t many = 0; many <= 64; many++)
        margin_inside((uint8_t)many, many);
    printf("overlaps: %lu as expected\n", expected());
    lent_free(&fresh);
    lent_free(&small);
    return 0;
}
