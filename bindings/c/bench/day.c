#include "bench.h"

#include "../../../include/loft.h"
#include "../tests/expect.h"

#include <inttypes.h>
#include <stdio.h>
#include <stdlib.h>
#include <string.h>

#define MOST_RECORDS 1000000

static uint8_t book[LOFT_BOOK];

int bench_day(size_t size)
{
    static const char *const closings[] = { "end", "cut", "long" };
    size_t held = 0, room = LOFT_ANSWER * (size / 6 + 1), got;
    uint8_t *piece = malloc(size);
    uint16_t *answers = malloc(room * sizeof *answers);
    uint64_t told[LOFT_TOLD], read = 0, done = 0;
    expect(piece != NULL && answers != NULL, "memory for pieces of %zu bytes", size);
    loft_fresh(book, LOFT_BOOK);
    do {
        got = fread(piece + held, 1, size - held, stdin);
        held += got;
        uint8_t refusal = loft_day(book, LOFT_BOOK, piece, held, MOST_RECORDS - read, answers, room, told, LOFT_TOLD);
        expect(refusal == 0, "a piece: refused with %u", refusal);
        read += told[2];
        done += told[3];
        held -= told[1];
        memmove(piece, piece + told[1], held);
    } while (got > 0 && read < MOST_RECORDS);
    printf("%s %" PRIu64 " %" PRIu64 "\n", closings[told[0]], read, done);
    free(piece);
    free(answers);
    return 0;
}
