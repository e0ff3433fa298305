/* A clearing member's morning: a trading member and its client are opened, the client's cash comes in and is allocated,
 * and its margin is set. Two more margins come as a piece of a day file, the first of them too high.
 *
 *     bindings/make && gcc -Iinclude bindings/c/example.c target/bindings/libloft.a -o example && ./example
 */
#include "../../include/loft.h"

#include <inttypes.h>
#include <stdio.h>

static uint8_t book[LOFT_BOOK];
static uint16_t serial;

static void print_answer(const uint16_t *a)
{
    printf("%u %u %u %u %u\n", a[0], a[1], a[2], a[3], a[4]);
}

/* Carries out a record that names at most one amount, and prints its answer. */
static void carry_out(uint8_t code, uint8_t named, uint16_t account, size_t place, uint64_t amount)
{
    uint64_t amounts[LOFT_AMOUNTS] = { 0 };
    uint16_t answer[LOFT_ANSWER];
    amounts[place] = amount;
    uint8_t refusal = loft_carry_out(book, sizeof book, serial++, code, named, account, amounts, LOFT_AMOUNTS,
                                     answer, LOFT_ANSWER);
    if (refusal == 1)
        printf("the book isn't sound\n");
    else
        print_answer(answer);
}

static void print_standing(uint16_t account)
{
    uint64_t f[LOFT_FIGURES];
    uint8_t refusal = loft_standing(book, sizeof book, account, f, LOFT_FIGURES);
    if (refusal != 0)
        printf("account %u: refused, %u\n", account, refusal);
    else
        printf("account %u: collateral %" PRIu64 ", need %" PRIu64 ", blocked %" PRIu64 ", deemed %" PRIu64
               ", free %" PRIu64 "\n", account, f[0], f[1], f[2], f[3], f[4]);
}

int main(void)
{
    static const uint8_t piece[] = {
        0x0A, 0x20, 0x00, 0x05, 0x00, 0x02, 0, 0, 0, 0, 0, 0, 0xEA, 0x60, /* 60,000 */
        0x0A, 0x20, 0x00, 0x06, 0x00, 0x02, 0, 0, 0, 0, 0, 0, 0x75, 0x30, /* 30,000 */
    };
    uint16_t answers[2 * LOFT_ANSWER];
    uint64_t told[LOFT_TOLD];
    loft_fresh(book, sizeof book);
    carry_out(1, 0, 0, 0, 0);       /* open a TM: it is account 1 */
    carry_out(2, 0, 1, 0, 0);       /* open a client of it: account 2 */
    carry_out(4, 1, 2, 0, 30000);   /* receive cash */
    carry_out(6, 1, 2, 0, 30000);   /* allocate it */
    carry_out(10, 32, 2, 5, 20000); /* set the margin */
    print_standing(2);
    if (loft_day(book, sizeof book, piece, sizeof piece, 1000000, answers, 2 * LOFT_ANSWER, told, LOFT_TOLD) != 0)
        return 1;
    for (uint64_t i = 0; i < told[2]; i++)
        print_answer(answers + LOFT_ANSWER * i);
    printf("%s %" PRIu64 " %" PRIu64 "\n", told[0] == LOFT_END ? "end" : "not all", told[2], told[3]);
    print_standing(2);
    return 0;
}
