/* Answers each table of standard input by calling the check's C entry, and probe_text for its text: check_driver
   [ROWS RING [NUMBERS [TEXT]]], the lengths of the lent buffers (1,024, 64, 32 and 16,384 if not given). A line is
   `CODE NUMBERS ROWS RING TEXT AROUND`: the bytes of each buffer, and `kept`, or the first thing that changed and
   should not have. */
#include "lent.h"
#include "probe.h"
#include "reefsplice.h"
#include <inttypes.h>
#include <stdio.h>
#include <stdlib.h>

enum { ROWS, RING, NUMBERS, TEXT, LENT };

static size_t lengths[LENT] = {REEFSPLICE_ROWS_BYTES, REEFSPLICE_RING_BYTES, REEFSPLICE_NUMBERS_BYTES, 16384};

/* One call of each function, with fresh buffers. */
static struct called call(struct bytes table, uint8_t turn)
{
    static const char *names[LENT] = {"rows", "ring", "numbers", "text"};
    struct called c = {.count = LENT};
    for (size_t i = 0; i < LENT; i++)
        c.lent[i] = lend_marked(names[i], lengths[i], turn);
    struct lent *rows = &c.lent[ROWS], *ring = &c.lent[RING], *numbers = &c.lent[NUMBERS], *text = &c.lent[TEXT];
    c.code = reefsplice_check(table.bytes, table.length, rows->bytes, rows->length, ring->bytes, ring->length,
                              numbers->bytes, numbers->length);
    rows->may = c.code == 0 ? rows->length : 0;
    ring->may = c.code == 0 ? ring->length : 0;
    numbers->may = c.code == 0 ? numbers->length : 0;
    text->may = probe_text(table.bytes, table.length, text->bytes, text->length);
    return c;
}

static void answer(const struct bytes *fields)
{
    struct called first = call(fields[0], 0), turned = call(fields[0], 255);
    struct lent text = first.lent[TEXT];
    printf("%" PRIu64, first.code);
    print_hex(first.lent[NUMBERS].bytes, lengths[NUMBERS]);
    print_hex(first.lent[ROWS].bytes, lengths[ROWS]);
    print_hex(first.lent[RING].bytes, lengths[RING]);
    print_hex(text.bytes, text.may > text.length ? 0 : text.may);
    printf(" %s\n", around(first, turned));
}

int main(int count, char **words)
{
    for (int i = 1; i < count && i <= LENT; i++)
        lengths[i - 1] = strtoul(words[i], NULL, 10);
    return each_case(1, answer);
}
