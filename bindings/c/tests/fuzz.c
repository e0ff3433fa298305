/* Bytes that look random as books, ten million of each kind: any bytes, any behind a book's mark, any behind it with live and mode
 * 0 or 1, and good books with a few bytes changed. Of bytes that loft_is_sound denies every call refuses 1 and changes
 * nothing lent, but that loft_take_over may take a book of the old rule. Of bytes that it affirms no call refuses 1, what is
 * const stays, and what a call leaves is sound again. A refusal changes nothing but what loft_carry_out says. Guards hold. */
#include "books.h"
#include "expect.h"
#include "lent.h"
#include "random.h"

#include <stdio.h>
#include <string.h>

#define BYTES 10000000
#define PLACES 256
#define MOST_ROWS 256
#define PIECE 700

enum { BOOK, PIECE_LIST, FIGURES, AMOUNTS, ANSWERS, TOLD, NEEDS, LOSSES, PAYS, ENTRIES, NUMBER, MOVED, LISTS };

static struct lent lists[LISTS];
static unsigned long sound, unsound, taken_over;

static void lend(void)
{
    static const size_t sizes[LISTS] = {
        [BOOK] = LOFT_BOOK,          [PIECE_LIST] = PIECE,      [FIGURES] = 8 * LOFT_FIGURES,  [AMOUNTS] = 8 * LOFT_AMOUNTS,
        [ANSWERS] = 2 * LOFT_ANSWER, [TOLD] = 8 * LOFT_TOLD,    [NEEDS] = 8 * MOST_ROWS,       [LOSSES] = 8 * MOST_ROWS,
        [PAYS] = 32 * MOST_ROWS,     [ENTRIES] = 6 * MOST_ROWS, [NUMBER] = 8,                  [MOVED] = 2,
    };
    for (size_t i = 0; i < LISTS; i++)
        lists[i] = lent_new(sizes[i]);
}

static void *at(size_t list)
{
    return lent_list(&lists[list]);
}

static bool none_changed(void)
{
    for (size_t i = 0; i < LISTS; i++)
        if (!lent_is_same(&lists[i]))
            return false;
    return true;
}

static bool all_guarded(void)
{
    for (size_t i = 0; i < LISTS; i++)
        if (!lent_is_guarded(&lists[i]))
            return false;
    return true;
}

static void keep_all(void)
{
    for (size_t i = 0; i < LISTS; i++)
        lent_keep(&lists[i]);
}

/* Calls by number, each with arguments that differ from time to time. */
static uint8_t made(size_t call, size_t rows)
{
    uint16_t account = (uint16_t)random_below(260);
    uint8_t code = (uint8_t)random_below(15), named = (uint8_t)(1u << random_below(6));
    switch (call) {
    case 0: return loft_standing(at(BOOK), LOFT_BOOK, account, at(FIGURES), LOFT_FIGURES);
    case 1: return loft_most(at(BOOK), LOFT_BOOK, code, named, account, at(NUMBER));
    case 2: return loft_needs(at(BOOK), LOFT_BOOK, at(NEEDS), rows);
    case 3: return loft_close_out(at(BOOK), LOFT_BOOK, at(LOSSES), rows, at(PAYS), 4 * rows, at(NUMBER));
    case 4: return loft_statement(at(BOOK), LOFT_BOOK, account, at(PIECE_LIST), random_below(PIECE + 1));
    case 5:
        return loft_carry_out(at(BOOK), LOFT_BOOK, next_serial(at(BOOK)), code, named, account, at(AMOUNTS), LOFT_AMOUNTS, at(ANSWERS),
                              LOFT_ANSWER);
    case 6:
        return loft_day(at(BOOK), LOFT_BOOK, at(PIECE_LIST), random_below(PIECE + 1), random_below(9), at(ANSWERS), LOFT_ANSWER, at(TOLD),
                        LOFT_TOLD);
    case 7: return loft_archive(at(BOOK), LOFT_BOOK, at(ENTRIES), random_below(3 * MOST_ROWS + 1), at(MOVED));
    default: return loft_take_over(at(BOOK), LOFT_BOOK);
    }
}

#define CALLS 9
#define CHANGING 5
#define CARRYING_OUT 5
#define TAKING_OVER 8

static bool is_const(size_t call, size_t list)
{
    return list == PIECE_LIST || list == AMOUNTS || list == LOSSES || (list == BOOK && call < CHANGING);
}

static void of_unsound(size_t call, uint8_t refusal)
{
    if (call == TAKING_OVER && refusal == 0) {
        expect(loft_is_sound(at(BOOK), LOFT_BOOK), "a book taken over isn't sound");
        taken_over++;
        return;
    }
    expect(refusal == 1, "call %zu on bytes that are no sound book: %u", call, refusal);
    expect(none_changed(), "call %zu on bytes that are no sound book changes something", call);
}

static void of_sound(size_t call, uint8_t refusal)
{
    expect(call == TAKING_OVER || refusal != 1, "call %zu on a sound book: 1", call);
    expect(refusal <= 29 && refusal != 15, "call %zu on a sound book: %u", call, refusal);
    expect(refusal == 0 || call == CARRYING_OUT || none_changed(), "call %zu refuses with %u and changes something", call, refusal);
    for (size_t i = 0; i < LISTS; i++)
        expect(!is_const(call, i) || lent_is_same(&lists[i]), "call %zu changes list %zu, which is const", call, i);
    expect(loft_is_sound(at(BOOK), LOFT_BOOK), "call %zu leaves a book that isn't sound", call);
}

/* Every call on the bytes that stand for a book now. */
static void all_calls(void)
{
    uint8_t book[LOFT_BOOK];
    memcpy(book, at(BOOK), LOFT_BOOK);
    bool is_sound = loft_is_sound(book, LOFT_BOOK);
    size_t rows = is_sound ? rows_held(book) : random_below(MOST_ROWS + 1);
    *(is_sound ? &sound : &unsound) += 1;
    for (size_t call = 0; call < CALLS; call++) {
        memcpy(at(BOOK), book, LOFT_BOOK);
        random_fill(at(PIECE_LIST), PIECE);
        for (size_t i = 0; i < LOFT_AMOUNTS; i++)
            ((uint64_t *)at(AMOUNTS))[i] = random_number() >> random_below(64);
        for (size_t i = 0; i < MOST_ROWS; i++)
            ((uint64_t *)at(LOSSES))[i] = random_number() >> (22 + random_below(42));
        keep_all();
        uint8_t refusal = made(call, rows);
        expect(all_guarded(), "call %zu writes past a list", call);
        (is_sound ? of_sound : of_unsound)(call, refusal);
    }
}

static void put_mark(uint8_t *book)
{
    memcpy(book, "LVB\2", 4);
}

static void put_yes_or_no(uint8_t *book)
{
    for (size_t i = 0; i < PLACES; i++) {
        book[12 + 95 * i + 3] &= 1;
        book[12 + 95 * i + 86] &= 1;
    }
}

/* One to four bytes of a good book, half of them near its start, where rows are held. */
static void change_some(uint8_t *book)
{
    for (size_t i = 0; i <= random_below(4); i++) {
        size_t place = random_below(random_below(2) == 0 ? 800 : LOFT_BOOK);
        book[place] = (uint8_t)(random_below(2) == 0 ? random_below(3) : random_number() >> 16);
    }
}

static void put_book(size_t kind, size_t number)
{
    uint8_t *book = at(BOOK);
    if (kind < 3)
        random_fill(book, LOFT_BOOK);
    if (kind == 1 || kind == 2)
        put_mark(book);
    if (kind == 2)
        put_yes_or_no(book);
    if (kind < 3)
        return;
    static uint8_t goods[2][LOFT_BOOK];
    if (number == 0) {
        small_book(goods[0]);
        full_book(goods[1]);
    }
    memcpy(book, goods[number % 2], LOFT_BOOK);
    change_some(book);
}

int main(void)
{
    lend();
    for (size_t kind = 0; kind < 4; kind++)
        for (size_t number = 0; number * LOFT_BOOK < BYTES; number++) {
            put_book(kind, number);
            all_calls();
        }
    expect(sound > 0 && unsound > 0, "only one kind of book was met");
    printf("fuzz: %lu books sound, %lu not, %lu of these taken over, %lu as expected\n", sound, unsound, taken_over, expected());
    for (size_t i = 0; i < LISTS; i++)
        lent_free(&lists[i]);
    return 0;
}
