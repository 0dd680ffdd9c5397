/* Bytes of stack that one call of a C entry takes: stack check TABLE, stack step TABLE SCHEDULE (its last pair,
   from zeros) or stack run TABLE SCHEDULE. The call runs on a stack of its own that was painted before; the lowest byte
   that is no longer paint is as far down as the call wrote. A function that does nothing is called the same way, and
   what that takes is left out. */
#define _XOPEN_SOURCE 700
#include "reefsplice.h"
#include <stdint.h>
#include <stdio.h>
#include <stdlib.h>
#include <string.h>
#include <ucontext.h>

enum { STACK_BYTES = 1 << 20, MOST_BYTES = 1 << 16 };

struct input {
    uint8_t bytes[MOST_BYTES];
    size_t length;
};

static struct input table, schedule;
static uint8_t rows[REEFSPLICE_ROWS_BYTES], ring[REEFSPLICE_RING_BYTES], heard[REEFSPLICE_HEARD_BYTES];
static uint8_t sums[REEFSPLICE_SUMS_BYTES], numbers[REEFSPLICE_NUMBERS_BYTES];
static void (*volatile called)(void);
static ucontext_t here, there;

static void nothing(void)
{
}

static void check(void)
{
    reefsplice_check(table.bytes, table.length, rows, sizeof rows, ring, sizeof ring, numbers, sizeof numbers);
}

static void step(void)
{
    const uint8_t *pair = schedule.bytes + schedule.length - 2;
    reefsplice_step(table.bytes, table.length, heard, sizeof heard, pair[0], pair[1], numbers, sizeof numbers);
}

static void run(void)
{
    reefsplice_run(table.bytes, table.length, heard, sizeof heard, schedule.bytes, schedule.length, sums, sizeof sums,
                   numbers, sizeof numbers);
}

static void call(void)
{
    called();
}

/* Bytes from the lowest one that changed to the stack's end. */
static size_t painted_depth(void (*function)(void), uint8_t *stack, uint8_t paint)
{
    memset(stack, paint, STACK_BYTES);
    memset(heard, 0, sizeof heard);
    if (getcontext(&there) != 0)
        exit(2);
    there.uc_stack.ss_sp = stack;
    there.uc_stack.ss_size = STACK_BYTES;
    there.uc_link = &here;
    called = function;
    makecontext(&there, call, 0);
    if (swapcontext(&here, &there) != 0)
        exit(2);
    size_t untouched = 0;
    while (untouched < STACK_BYTES && stack[untouched] == paint)
        untouched++;
    return STACK_BYTES - untouched;
}

/* A byte that is written with the paint's own value shows under the other paint. */
static size_t depth_of(void (*function)(void), uint8_t *stack)
{
    size_t one = painted_depth(function, stack, 0x5c), other = painted_depth(function, stack, 0xa3);
    return one > other ? one : other;
}

static void read_file(const char *name, struct input *input)
{
    FILE *file = fopen(name, "rb");
    if (file == NULL) {
        fprintf(stderr, "%s cannot be opened\n", name);
        exit(2);
    }
    input->length = fread(input->bytes, 1, sizeof input->bytes, file);
    fclose(file);
}

int main(int count, char **words)
{
    int is_check = count == 3 && strcmp(words[1], "check") == 0;
    int is_step = count == 4 && strcmp(words[1], "step") == 0;
    uint8_t *stack = malloc(STACK_BYTES);
    if ((!is_check && count != 4) || stack == NULL) {
        fputs("usage: stack check TABLE | stack step TABLE SCHEDULE | stack run TABLE SCHEDULE\n", stderr);
        return 2;
    }
    read_file(words[2], &table);
    if (!is_check)
        read_file(words[3], &schedule);
    size_t empty = depth_of(nothing, stack), full = depth_of(is_check ? check : is_step ? step : run, stack);
    if (full == STACK_BYTES) {
        fputs("the painted stack is too small\n", stderr);
        return 2;
    }
    printf("%zu\n", full - empty);
    free(stack);
    return 0;
}
