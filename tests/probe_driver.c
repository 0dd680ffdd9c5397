/* Answers each table of standard input with the line of `second batch`, by calling the proved code of libprobe.a. */
#include "lines.h"
#include "probe.h"
#include <inttypes.h>
#include <stdio.h>

enum { VERTICES = 64, RANKS = 16, PAIRS = VERTICES * VERTICES };

static void print_accepted(const uint8_t *table, size_t length)
{
    printf("0 0 %" PRIu64 " ", probe_longest(table, length));
    for (uint64_t v = 0; v < VERTICES; v++)
        printf("%" PRIu64, probe_present(table, length, v));
    for (uint64_t v = 0; v < VERTICES; v++)
        for (uint64_t k = 0; k < RANKS; k++)
            printf("%c%" PRIu64, v + k == 0 ? ' ' : ',', probe_slot(table, length, v, k));
    putchar(' ');
    for (uint64_t pair = 0; pair < PAIRS; pair++)
        printf("%" PRIu64, probe_listens(table, length, pair));
    putchar('\n');
}

static void answer(const struct bytes *fields)
{
    struct bytes table = fields[0];
    uint64_t code = probe_read(table.bytes, table.length);
    if (code == 0)
        print_accepted(table.bytes, table.length);
    else
        printf("%" PRIu64 " %" PRIu64 "\n", code % 256, code / 256);
}

int main(void)
{
    return each_case(1, answer);
}
