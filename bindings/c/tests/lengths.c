/* Every list of every function with wrong lengths, alone and together: 1 where the book's bytes are among them, otherwise 15,
 * and nothing lent changes. With right lengths: 0, what is const stays, and so do the guards. */
#include "books.h"
#include "expect.h"
#include "lent.h"

#include <stdio.h>
#include <string.h>

#define MOST_LISTS 6
#define WRONGS 4
#define ROWS SMALL_ROWS

enum kind { BOOK, CONST_BOOK, LIST, CONST_LIST, NUMBER, FREE_LIST, FREE_CONST };

/* A list by its width in bytes, its right length and wrong ones. The lengths of free lists aren't fixed, and a number is one
 * behind a plain pointer: neither gets a wrong one. */
struct list {
    enum kind kind;
    size_t width;
    size_t right;
    size_t wrong[WRONGS];
};

#define WRONG(right) { 0, (right) - 1, (right) + 1, 2 * (right) }
#define LIST_OF(kind, width, right) { kind, width, right, WRONG(right) }
#define NUMBER_OF(width) { NUMBER, width, 1, { 0 } }
#define FREE_OF(kind, width, length) { kind, width, length, { 0 } }

struct call {
    const char *name;
    struct list lists[MOST_LISTS];
    uint8_t (*make)(void *const *at, const size_t *length);
};

/* A margin of 20,000 for client 2, as a day file has it. */
static const uint8_t piece[LOFT_RECORD] = { 10, 32, 0, 21, 0, 2, 0, 0, 0, 0, 0, 0, 0x4E, 0x20 };

static uint8_t fresh(void *const *at, const size_t *length)
{
    return loft_fresh(at[0], length[0]);
}

static uint8_t is_sound(void *const *at, const size_t *length)
{
    return loft_is_sound(at[0], length[0]) ? 0 : 1;
}

static uint8_t standing(void *const *at, const size_t *length)
{
    return loft_standing(at[0], length[0], 1, at[1], length[1]);
}

static uint8_t carry_out(void *const *at, const size_t *length)
{
    return loft_carry_out(at[0], length[0], 21, 1, 0, 0, at[1], length[1], at[2], length[2]);
}

static uint8_t day(void *const *at, const size_t *length)
{
    return loft_day(at[0], length[0], at[1], length[1], 10, at[2], length[2], at[3], length[3]);
}

static uint8_t most(void *const *at, const size_t *length)
{
    return loft_most(at[0], length[0], 10, 32, 2, at[1]);
}

static uint8_t needs(void *const *at, const size_t *length)
{
    return loft_needs(at[0], length[0], at[1], length[1]);
}

static uint8_t close_out(void *const *at, const size_t *length)
{
    return loft_close_out(at[0], length[0], at[1], length[1], at[2], length[2], at[3]);
}

static uint8_t margin(void *const *at, const size_t *length)
{
    return loft_margin(21, 2, 7, at[0], length[0], at[1], length[1], at[2], length[2], at[3], length[3], at[4], length[4]);
}

/* The CP is no TM: 8, as far as a statement gets here. */
static uint8_t statement(void *const *at, const size_t *length)
{
    uint8_t refusal = loft_statement(at[0], length[0], 4, at[1], length[1]);
    return refusal == 8 ? 0 : refusal;
}

static uint8_t archive(void *const *at, const size_t *length)
{
    return loft_archive(at[0], length[0], at[1], length[1], at[2]);
}

static uint8_t take_over(void *const *at, const size_t *length)
{
    return loft_take_over(at[0], length[0]);
}

static uint8_t write_record(void *const *at, const size_t *length)
{
    return loft_write_record(21, 1, 0, 0, at[0], length[0], at[1], length[1], at[2]);
}

static uint8_t read_record(void *const *at, const size_t *length)
{
    return loft_read_record(at[0], length[0], 0, at[1], length[1]);
}

#define A_BOOK LIST_OF(BOOK, 1, LOFT_BOOK)
#define A_CONST_BOOK LIST_OF(CONST_BOOK, 1, LOFT_BOOK)

/* The three lists of positions are never wrong in the same way, or they would be of one length. */
static const struct call calls[] = {
    { "loft_fresh", { LIST_OF(LIST, 1, LOFT_BOOK) }, fresh },
    { "loft_is_sound", { A_CONST_BOOK }, is_sound },
    { "loft_standing", { A_CONST_BOOK, LIST_OF(LIST, 8, LOFT_FIGURES) }, standing },
    { "loft_carry_out", { A_BOOK, LIST_OF(CONST_LIST, 8, LOFT_AMOUNTS), LIST_OF(LIST, 2, LOFT_ANSWER) }, carry_out },
    { "loft_day", { A_BOOK, FREE_OF(FREE_CONST, 1, LOFT_RECORD), FREE_OF(FREE_LIST, 2, 13), LIST_OF(LIST, 8, LOFT_TOLD) }, day },
    { "loft_most", { A_CONST_BOOK, NUMBER_OF(8) }, most },
    { "loft_needs", { A_CONST_BOOK, LIST_OF(LIST, 8, ROWS) }, needs },
    { "loft_close_out", { A_CONST_BOOK, LIST_OF(CONST_LIST, 8, ROWS), LIST_OF(LIST, 8, 4 * ROWS), NUMBER_OF(8) }, close_out },
    { "loft_margin",
      { { CONST_LIST, 1, 3, { 0, 1, 2, 65 } },
        { CONST_LIST, 1, 3, { 1, 2, 4, 0 } },
        { CONST_LIST, 8, 3, { 2, 4, 0, 1 } },
        { CONST_LIST, 8, 2, { 1, 3, 5, 6 } },
        LIST_OF(LIST, 1, LOFT_RECORD) },
      margin },
    { "loft_statement", { A_CONST_BOOK, FREE_OF(FREE_CONST, 1, 4) }, statement },
    { "loft_archive", { A_BOOK, FREE_OF(FREE_LIST, 2, 7), NUMBER_OF(2) }, archive },
    { "loft_take_over", { A_BOOK }, take_over },
    { "loft_write_record", { LIST_OF(CONST_LIST, 8, LOFT_AMOUNTS), FREE_OF(FREE_LIST, 1, 9), NUMBER_OF(8) }, write_record },
    { "loft_read_record", { FREE_OF(FREE_CONST, 1, LOFT_RECORD), LIST_OF(LIST, 8, LOFT_NUMBERS) }, read_record },
};

static bool is_book(const struct list *list)
{
    return list->kind == BOOK || list->kind == CONST_BOOK;
}

static bool is_const(const struct list *list)
{
    return list->kind == CONST_BOOK || list->kind == CONST_LIST || list->kind == FREE_CONST;
}

static bool can_be_wrong(const struct list *list)
{
    return is_book(list) || list->kind == LIST || list->kind == CONST_LIST;
}

static size_t lists_of(const struct call *call)
{
    size_t lists = 0;
    while (lists < MOST_LISTS && call->lists[lists].width != 0)
        lists++;
    return lists;
}

/* A list of so many elements: the small book at its start, the piece, or zeros, which are good amounts, losses and positions. */
static struct lent lent_to(const struct list *list, size_t length)
{
    struct lent lent = lent_new(length * list->width);
    uint8_t book[LOFT_BOOK];
    if (is_book(list)) {
        small_book(book);
        memcpy(lent_list(&lent), book, length < LOFT_BOOK ? length : LOFT_BOOK);
    } else if (list->kind == FREE_CONST) {
        memcpy(lent_list(&lent), piece, length < LOFT_RECORD ? length : LOFT_RECORD);
    } else if (list->kind == CONST_LIST) {
        memset(lent_list(&lent), 0, lent.size);
    }
    lent_keep(&lent);
    return lent;
}

/* Makes the call with those lists of a wrong length whose bit is set, in the given way; `wrong` is 0 with none. */
static void tried(const struct call *call, unsigned wrong, size_t way)
{
    struct lent lent[MOST_LISTS];
    void *at[MOST_LISTS] = { NULL };
    size_t length[MOST_LISTS] = { 0 };
    uint8_t wanted = wrong == 0 ? 0 : 15;
    size_t lists = lists_of(call);
    for (size_t i = 0; i < lists; i++) {
        const struct list *list = &call->lists[i];
        length[i] = wrong & 1u << i ? list->wrong[way] : list->right;
        lent[i] = lent_to(list, length[i]);
        at[i] = lent_list(&lent[i]);
        if (wrong & 1u << i && is_book(list))
            wanted = 1;
    }
    uint8_t got = call->make(at, length);
    expect(got == wanted, "%s, lists %u wrong, way %zu: %u and not %u", call->name, wrong, way, got, wanted);
    for (size_t i = 0; i < lists; i++) {
        bool must_stay = wanted != 0 || is_const(&call->lists[i]);
        expect(must_stay ? lent_is_same(&lent[i]) : lent_is_guarded(&lent[i]), "%s, lists %u wrong, way %zu: list %zu changed", call->name,
               wrong, way, i);
        lent_free(&lent[i]);
    }
}

static void all_ways(const struct call *call)
{
    unsigned can_be = 0;
    for (size_t i = 0; i < lists_of(call); i++)
        if (can_be_wrong(&call->lists[i]))
            can_be |= 1u << i;
    tried(call, 0, 0);
    for (unsigned wrong = 1; wrong <= can_be; wrong++)
        for (size_t way = 0; (wrong & can_be) == wrong && way < WRONGS; way++)
            tried(call, wrong, way);
}

int main(void)
{
    for (size_t i = 0; i < sizeof calls / sizeof *calls; i++)
        all_ways(&calls[i]);
    printf("lengths: %lu as expected\n", expected());
    return 0;
}
