/* Answers each case of standard input by calling the C entry of the step or of the run, and probe_run_text for the text
   of a run: machine_driver step [NUMBERS] or machine_driver run [NUMBERS [TEXT]], the lengths of the lent buffers (32
   and 8,192 if not given). A line is `CODE NUMBERS HEARD AROUND` or `CODE NUMBERS HEARD SUMS TEXT AROUND`: the bytes of
   each buffer, and `kept`, or the first thing that changed and should not have. */
#include "lent.h"
#include "probe.h"
#include "reefsplice.h"
#include <inttypes.h>
#include <stdio.h>
#include <stdlib.h>
#include <string.h>

static size_t numbers_length = REEFSPLICE_NUMBERS_BYTES, text_length = 8192;

/* What a call that answered with this code may have written of a buffer. */
static size_t may_write(uint64_t code, struct lent lent)
{
    return code == 0 ? lent.length : 0;
}

static struct called call_step(struct bytes table, struct bytes heard, struct bytes pair, uint8_t turn)
{
    struct lent state = lend("heard", heard, 0), numbers = lend_marked("numbers", numbers_length, turn);
    uint64_t code = reefsplice_step(table.bytes, table.length, state.bytes, state.length, pair.bytes[0], pair.bytes[1],
                                    numbers.bytes, numbers.length);
    state.may = may_write(code, state);
    numbers.may = may_write(code, numbers);
    return (struct called){code, {state, numbers}, 2};
}

static void answer_step(const struct bytes *fields)
{
    if (fields[2].length != 2)
        exit(2);
    struct called first = call_step(fields[0], fields[1], fields[2], 0);
    struct called turned = call_step(fields[0], fields[1], fields[2], 255);
    printf("%" PRIu64, first.code);
    print_hex(first.lent[1].bytes, first.lent[1].length);
    print_hex(first.lent[0].bytes, first.lent[0].length);
    printf(" %s\n", around(first, turned));
}

static struct called call_run(const struct bytes *fields, uint8_t turn)
{
    struct bytes table = fields[0], schedule = fields[2];
    struct lent state = lend("heard", fields[1], 0), sums = lend("sums", fields[3], turn);
    struct lent numbers = lend_marked("numbers", numbers_length, turn), text = lend_marked("text", text_length, turn);
    uint64_t code = reefsplice_run(table.bytes, table.length, state.bytes, state.length, schedule.bytes,
                                   schedule.length, sums.bytes, sums.length, numbers.bytes, numbers.length);
    state.may = may_write(code, state);
    sums.may = may_write(code, sums);
    numbers.may = may_write(code, numbers);
    text.may = probe_run_text(table.bytes, table.length, schedule.bytes, schedule.length, text.bytes, text.length);
    return (struct called){code, {state, sums, numbers, text}, 4};
}

static void answer_run(const struct bytes *fields)
{
    struct called first = call_run(fields, 0), turned = call_run(fields, 255);
    struct lent text = first.lent[3];
    printf("%" PRIu64, first.code);
    print_hex(first.lent[2].bytes, first.lent[2].length);
    print_hex(first.lent[0].bytes, first.lent[0].length);
    print_hex(first.lent[1].bytes, first.lent[1].length);
    print_hex(text.bytes, text.may > text.length ? 0 : text.may);
    printf(" %s\n", around(first, turned));
}

int main(int count, char **words)
{
    if (count > 2)
        numbers_length = strtoul(words[2], NULL, 10);
    if (count > 3)
        text_length = strtoul(words[3], NULL, 10);
    return count > 1 && strcmp(words[1], "step") == 0 ? each_case(3, answer_step) : each_case(4, answer_run);
}
