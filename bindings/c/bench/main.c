/* bench calls: microseconds of each call on a full book of 256 accounts, the least of ten rounds, and the bytes of stack that it takes.
 * bench day BYTES < DAYFILE: carries a day file out over a fresh book in pieces of so many bytes, and prints the closing line that the
 * program `day` prints. The answers are put but not printed. */
#include "bench.h"

#include "../../../include/loft.h"

#include <stdio.h>
#include <stdlib.h>
#include <string.h>

int main(int count, char **words)
{
    size_t size = count == 3 ? strtoul(words[2], NULL, 10) : 0;
    if (count == 2 && strcmp(words[1], "calls") == 0)
        return bench_calls();
    if (size >= LOFT_LONGEST && strcmp(words[1], "day") == 0)
        return bench_day(size);
    fprintf(stderr, "bench calls | bench day BYTES < DAYFILE\n");
    return 2;
}
