/* See entry_calls.h. */
#include "entry_calls.h"
#include <inttypes.h>
#include <stdio.h>
#include <stdlib.h>
#include <string.h>

enum { EDGE = 64 };

static const char *const entry_names[ENTRIES] = {"check", "step", "run"};
static const char *const lent_names[LENT] = {"table", "heard", "schedule", "rows", "ring", "sums", "numbers"};
static const size_t right_length[LENT] = {
    [HEARD] = REEFSPLICE_HEARD_BYTES, [ROWS] = REEFSPLICE_ROWS_BYTES,       [RING] = REEFSPLICE_RING_BYTES,
    [SUMS] = REEFSPLICE_SUMS_BYTES,   [NUMBERS] = REEFSPLICE_NUMBERS_BYTES,
};
static unsigned passed, failed;

bool takes(enum entry entry, enum lent lent)
{
    static const bool taken[ENTRIES][LENT] = {
        [CHECK] = {[TABLE] = true, [ROWS] = true, [RING] = true, [NUMBERS] = true},
        [STEP] = {[TABLE] = true, [HEARD] = true, [NUMBERS] = true},
        [RUN] = {[TABLE] = true, [HEARD] = true, [SCHEDULE] = true, [SUMS] = true, [NUMBERS] = true},
    };
    return taken[entry][lent];
}

/* What a call only writes to; what stood there before must make no difference. */
static bool is_output(enum lent lent)
{
    return lent == ROWS || lent == RING || lent == SUMS || lent == NUMBERS;
}

/* No byte is like its neighbours, so that cleared, filled or shifted bytes show. */
static uint8_t mark(size_t at)
{
    return (uint8_t)(165 + 7 * at);
}

static void lend_as_usual(struct buffer *buffer, enum lent lent)
{
    buffer->length = right_length[lent];
    buffer->is_filled = false;
    for (size_t at = 0; at < MOST_BYTES; at++)
        buffer->before[at] = is_output(lent) ? mark(at) : 0;
}

struct call *call_of(enum entry entry, const char *name, const uint8_t *table, size_t length)
{
    static struct call call;
    call.entry = entry;
    call.name = name;
    call.listener = call.speaker = 0;
    call.code = 0;
    for (int i = 0; i < LENT; i++)
        lend_as_usual(&call.lent[i], i);
    lend(&call, TABLE, table, length);
    return &call;
}

void lend(struct call *call, enum lent lent, const uint8_t *content, size_t length)
{
    if (length > MOST_BYTES)
        exit(2);
    call->lent[lent].length = length;
    memcpy(call->lent[lent].before, content, length);
}

uint8_t *filled(struct call *call, enum lent lent)
{
    struct buffer *buffer = &call->lent[lent];
    buffer->is_filled = true;
    memcpy(buffer->after, buffer->before, MOST_BYTES);
    return buffer->after;
}

/* ---- one byte of a buffer or of its edges, counted from the buffer's start */

static bool is_inside(const struct buffer *buffer, ptrdiff_t at)
{
    return 0 <= at && at < (ptrdiff_t)buffer->length;
}

static uint8_t byte_before(const struct buffer *buffer, ptrdiff_t at, uint8_t turn)
{
    return is_inside(buffer, at) ? buffer->before[at] ^ turn : mark((size_t)at);
}

static uint8_t byte_after(const struct buffer *buffer, ptrdiff_t at, uint8_t turn)
{
    return buffer->is_filled && is_inside(buffer, at) ? buffer->after[at] : byte_before(buffer, at, turn);
}

/* The place that ENTRIES_TURN names in this buffer, or one past all places. */
static ptrdiff_t planted(const struct call *call, const char *buffer)
{
    char here[128];
    const char *turned = getenv("ENTRIES_TURN");
    int length = snprintf(here, sizeof here, "%s %s %s ", entry_names[call->entry], call->name, buffer);
    if (turned == NULL || strncmp(turned, here, (size_t)length) != 0)
        return PTRDIFF_MAX;
    return strtol(turned + length, NULL, 10);
}

/* ---- a call */

struct tried {
    size_t edge;
    uint8_t turn;       /* the bits in which the output buffers differ from what the case lends */
    uint8_t *all[LENT]; /* with edges */
};

static uint8_t turn_of(const struct tried *tried, enum lent lent)
{
    return is_output(lent) ? tried->turn : 0;
}

static uint8_t *room_with_edges(const struct tried *tried, const struct buffer *buffer, uint8_t turn)
{
    size_t whole = buffer->length + 2 * tried->edge;
    uint8_t *all = malloc(whole);
    if (all == NULL) {
        fprintf(stderr, "no memory\n");
        exit(2);
    }
    for (size_t at = 0; at < whole; at++)
        all[at] = byte_before(buffer, (ptrdiff_t)at - (ptrdiff_t)tried->edge, turn);
    return all;
}

static uint64_t code_of(const struct call *call, const struct tried *tried)
{
    const struct buffer *lent = call->lent;
    uint8_t *at[LENT];
    for (int i = 0; i < LENT; i++)
        at[i] = tried->all[i] + tried->edge;
    if (call->entry == CHECK)
        return reefsplice_check(at[TABLE], lent[TABLE].length, at[ROWS], lent[ROWS].length, at[RING], lent[RING].length,
                                at[NUMBERS], lent[NUMBERS].length);
    if (call->entry == STEP)
        return reefsplice_step(at[TABLE], lent[TABLE].length, at[HEARD], lent[HEARD].length, call->listener,
                               call->speaker, at[NUMBERS], lent[NUMBERS].length);
    return reefsplice_run(at[TABLE], lent[TABLE].length, at[HEARD], lent[HEARD].length, at[SCHEDULE],
                          lent[SCHEDULE].length, at[SUMS], lent[SUMS].length, at[NUMBERS], lent[NUMBERS].length);
}

static bool is_code_right(const struct call *call, uint64_t code)
{
    uint64_t expected = call->code ^ (planted(call, "code") == 0);
    if (code != expected)
        printf("FAILED %s %s: code is %" PRIu64 " and not %" PRIu64 "\n", entry_names[call->entry], call->name, code,
               expected);
    return code == expected;
}

/* Names the first byte of a buffer or its edges that is another than it should be. */
static bool is_buffer_right(const struct call *call, const struct tried *tried, enum lent lent)
{
    const struct buffer *buffer = &call->lent[lent];
    ptrdiff_t edge = (ptrdiff_t)tried->edge, end = (ptrdiff_t)buffer->length + edge;
    ptrdiff_t turned = planted(call, lent_names[lent]);
    for (ptrdiff_t at = -edge; at < end; at++) {
        uint8_t found = tried->all[lent][edge + at];
        uint8_t expected = byte_after(buffer, at, turn_of(tried, lent)) ^ (at == turned);
        if (found != expected) {
            printf("FAILED %s %s: %s at %td is %u and not %u\n", entry_names[call->entry], call->name, lent_names[lent],
                   at, found, expected);
            return false;
        }
    }
    return true;
}

static bool is_right(const struct call *call, size_t edge, uint8_t turn)
{
    struct tried tried = {edge, turn, {NULL}};
    for (int i = 0; i < LENT; i++)
        tried.all[i] = room_with_edges(&tried, &call->lent[i], turn_of(&tried, i));
    bool is_right = is_code_right(call, code_of(call, &tried));
    for (int i = 0; i < LENT; i++) {
        is_right = is_right && is_buffer_right(call, &tried, i);
        free(tried.all[i]);
    }
    return is_right;
}

void hold(const struct call *call)
{
    if (!is_right(call, EDGE, 0) || !is_right(call, 0, 255)) {
        failed++;
        return;
    }
    passed++;
    printf("ok %s %s %" PRIu64 "\n", entry_names[call->entry], call->name, call->code);
}

int counted(void)
{
    printf("%u passed, %u failed\n", passed, failed);
    return failed == 0 ? 0 : 1;
}
