/* The C entries on cases written out by hand from the rules page: every refusal of every entry with its place, every
   wrong length of every buffer, and tables 1 to 9 with every byte that they leave. A line for each call, the counts
   last. */
#include "entry_calls.h"
#include <string.h>

#define U REEFSPLICE_UNUSED
#define ONE_HOP(rank, a, b) rank, 1, a, b, U, U, U, U, U, U, U, U, U, U, U, 0
#define TWO_HOPS(rank, a, b, c) rank, 2, a, b, c, U, U, U, U, U, U, U, U, U, U, 0
#define COUNT(list) (sizeof(list) / sizeof *(list))

/* The tables of the page, by their numbers there; table 1 is empty. */
static const uint8_t table_2[] = {ONE_HOP(1, 1, 0)};
static const uint8_t table_3[] = {TWO_HOPS(1, 1, 2, 0), ONE_HOP(2, 1, 0), TWO_HOPS(1, 2, 1, 0), ONE_HOP(2, 2, 0)};
static const uint8_t table_4[] = {TWO_HOPS(1, 1, 2, 0), ONE_HOP(2, 1, 0),     TWO_HOPS(1, 2, 3, 0),
                                  ONE_HOP(2, 2, 0),     TWO_HOPS(1, 3, 1, 0), ONE_HOP(2, 3, 0)};
static const uint8_t table_5[] = {ONE_HOP(1, 1, 0), TWO_HOPS(1, 2, 3, 0), TWO_HOPS(2, 2, 1, 0),
                                  ONE_HOP(3, 2, 0), TWO_HOPS(1, 3, 2, 0), ONE_HOP(2, 3, 0)};
static const uint8_t table_6[] = {TWO_HOPS(1, 1, 2, 0)};
static const uint8_t table_7[] = {ONE_HOP(1, 1, 0), TWO_HOPS(1, 2, 1, 0), ONE_HOP(2, 2, 0), TWO_HOPS(1, 3, 2, 0)};

/* Offsets of the heard state: 64 times the listener plus the speaker. */
enum { HEARD_1_0 = 64, HEARD_2_0 = 128, HEARD_2_1 = 129, HEARD_3_2 = 194 };

/* ---- buffers, written out */

static void put_words(uint8_t *bytes, const uint32_t *words, size_t count)
{
    for (size_t i = 0; i < 4 * count; i++)
        bytes[i] = (uint8_t)(words[i / 4] >> 8 * (i % 4));
}

/* Row 0 and 63 absent vertices. */
static void put_empty_rows(uint8_t *rows)
{
    memset(rows, U, REEFSPLICE_ROWS_BYTES);
    for (size_t at = 0; at < REEFSPLICE_ROWS_BYTES; at += REEFSPLICE_ROW_BYTES)
        memcpy(rows + at, (const uint8_t[]){REEFSPLICE_ABSENT, 0, 0}, 3);
    memcpy(rows, (const uint8_t[]){0, 0, 0, 0}, 4);
}

/* ---- checks */

struct checked {
    const char *name;
    const uint8_t *table;
    size_t length;
    uint32_t numbers[8];
    uint8_t ring[3], ring_length;
    uint8_t rows[3][6]; /* the first bytes of rows 1 to 3 as far as they are not 255 */
    uint8_t rows_length[3];
};

static const struct checked checks[] = {
    {"table-1", table_2, 0, {0, 0, 0, 0, 0, 0, 0, 0}, {0}, 0, {{0}}, {0}},
    {"table-2", table_2, sizeof table_2, {0, 1, 0, 1, 1, 0, 0, 0}, {0}, 0, {{1, 1, 1, 1, 0}}, {5}},
    {"table-3", table_3, sizeof table_3, {2, 0, 2, 0, 2, 0, 0, 0}, {1, 2}, 2,
     {{255, 1, 2, 1, 2, 0}, {255, 1, 2, 2, 1, 0}}, {6, 6}},
    {"table-4", table_4, sizeof table_4, {3, 0, 3, 0, 2, 0, 0, 0}, {1, 2, 3}, 3,
     {{255, 1, 2, 1, 2, 0}, {255, 1, 2, 2, 3, 0}, {255, 1, 2, 3, 1, 0}}, {6, 6, 6}},
    {"table-5", table_5, sizeof table_5, {2, 1, 2, 1, 2, 0, 0, 0}, {2, 3}, 2,
     {{1, 1, 1, 1, 0}, {255, 1, 2, 2, 3, 0}, {255, 1, 2, 3, 2, 0}}, {5, 6, 6}},
    {"table-6", table_6, sizeof table_6, {0, 2, 0, 2, 2, 0, 0, 0}, {0}, 0, {{2, 0, 0}, {1, 0, 0}}, {3, 3}},
    {"table-7", table_7, sizeof table_7, {0, 3, 0, 3, 2, 0, 0, 0}, {0}, 0,
     {{1, 1, 1, 1, 0}, {2, 1, 2, 2, 1, 0}, {3, 0, 0}}, {5, 6, 3}},
};

static void hold_check(const struct checked *checked)
{
    struct call *call = call_of(CHECK, checked->name, checked->table, checked->length);
    uint8_t *rows = filled(call, ROWS), *ring = filled(call, RING);
    put_empty_rows(rows);
    for (size_t i = 0; i < COUNT(checked->rows); i++)
        memcpy(rows + REEFSPLICE_ROW_BYTES * (i + 1), checked->rows[i], checked->rows_length[i]);
    memset(ring, U, REEFSPLICE_RING_BYTES);
    memcpy(ring, checked->ring, checked->ring_length);
    put_words(filled(call, NUMBERS), checked->numbers, COUNT(checked->numbers));
    hold(call);
}

/* ---- steps and runs */

/* A heard state of which these bytes, and no others, may be another than 0. */
struct heard {
    uint8_t at_1_0, at_2_0, at_2_1, at_3_2;
};

static void put_heard(uint8_t *bytes, struct heard heard)
{
    bytes[HEARD_1_0] = heard.at_1_0;
    bytes[HEARD_2_0] = heard.at_2_0;
    bytes[HEARD_2_1] = heard.at_2_1;
    bytes[HEARD_3_2] = heard.at_3_2;
}

struct stepped {
    const char *name;
    const uint8_t *table;
    size_t length;
    uint8_t listener, speaker;
    struct heard before, after;
    uint32_t movement;
};

static const struct stepped steps[] = {
    {"case-8-step-1", table_3, sizeof table_3, 1, 0, {0, 0, 0, 0}, {1, 0, 0, 0}, 15},
    {"case-8-step-2", table_3, sizeof table_3, 2, 1, {1, 0, 0, 0}, {1, 0, 2, 0}, 16},
    {"case-9-step-1", table_7, sizeof table_7, 2, 0, {0, 0, 0, 0}, {0, 1, 0, 0}, 15},
    {"case-9-step-2", table_7, sizeof table_7, 3, 2, {0, 1, 0, 0}, {0, 1, 0, 2}, 16},
    {"case-9-step-3", table_7, sizeof table_7, 1, 0, {0, 1, 0, 2}, {1, 1, 0, 2}, 16},
    {"case-9-step-4", table_7, sizeof table_7, 2, 1, {1, 1, 0, 2}, {1, 1, 1, 2}, 1},
    {"case-9-step-5", table_7, sizeof table_7, 3, 2, {1, 1, 1, 2}, {1, 1, 1, 1}, 0xfffffff0u /* -16 */},
    {"case-9-repeated", table_7, sizeof table_7, 3, 2, {1, 1, 1, 1}, {1, 1, 1, 1}, 0},
};

static void hold_step(const struct stepped *stepped)
{
    struct call *call = call_of(STEP, stepped->name, stepped->table, stepped->length);
    call->listener = stepped->listener;
    call->speaker = stepped->speaker;
    put_heard(call->lent[HEARD].before, stepped->before);
    put_heard(filled(call, HEARD), stepped->after);
    put_words(filled(call, NUMBERS), (const uint32_t[8]){stepped->movement}, 8);
    hold(call);
}

struct ran {
    const char *name;
    const uint8_t *table;
    size_t length;
    uint8_t schedule[10];
    size_t schedule_length;
    struct heard before, after;
    uint32_t numbers[8], sums[REEFSPLICE_VERTICES];
};

static const struct ran runs[] = {
    {"table-1", table_2, 0, {0}, 0, {0, 0, 0, 0}, {0, 0, 0, 0}, {0, 0, 0, 0, 0, 0, 0, 0}, {0}},
    {"no-pair", table_7, sizeof table_7, {0}, 0, {1, 1, 0, 2}, {1, 1, 0, 2}, {0, 0, 0, 0, 0, 0, 0, 0}, {0}},
    {"case-8", table_3, sizeof table_3, {1, 0, 2, 1}, 4, {0, 0, 0, 0}, {1, 0, 2, 0}, {2, 2, 0, 2, 0, 0, 0, 0},
     {0, 15, 16}},
    {"case-9", table_7, sizeof table_7, {2, 0, 3, 2, 1, 0, 2, 1, 3, 2}, 10, {0, 0, 0, 0}, {1, 1, 1, 1},
     {5, 4, 1, 5, 1, 0, 0, 0}, {0, 16, 16, 0}},
    {"case-9-front", table_7, sizeof table_7, {2, 0, 3, 2, 1, 0}, 6, {0, 0, 0, 0}, {1, 1, 0, 2},
     {3, 3, 0, 3, 0, 0, 0, 0}, {0, 16, 15, 16}},
    {"case-9-rest", table_7, sizeof table_7, {2, 1, 3, 2}, 4, {1, 1, 0, 2}, {1, 1, 1, 1}, {2, 1, 1, 2, 0, 0, 0, 0},
     {0, 0, 1, 0xfffffff0u /* -16 */}},
};

static void hold_run(const struct ran *ran)
{
    struct call *call = call_of(RUN, ran->name, ran->table, ran->length);
    lend(call, SCHEDULE, ran->schedule, ran->schedule_length);
    put_heard(call->lent[HEARD].before, ran->before);
    put_heard(filled(call, HEARD), ran->after);
    put_words(filled(call, NUMBERS), ran->numbers, COUNT(ran->numbers));
    put_words(filled(call, SUMS), ran->sums, COUNT(ran->sums));
    hold(call);
}

/* 16,384 times the same pair: each is a round, and the first alone changes something. */
static void hold_longest_run(void)
{
    struct call *call = call_of(RUN, "longest-schedule", table_2, sizeof table_2);
    call->lent[SCHEDULE].length = REEFSPLICE_MOST_SCHEDULE_BYTES;
    for (size_t at = 0; at < REEFSPLICE_MOST_SCHEDULE_BYTES; at += 2)
        call->lent[SCHEDULE].before[at] = 1;
    put_heard(filled(call, HEARD), (struct heard){1, 0, 0, 0});
    put_words(filled(call, NUMBERS), (const uint32_t[8]){16384, 1, 0, 1, 16384}, 8);
    put_words(filled(call, SUMS), (const uint32_t[REEFSPLICE_VERTICES]){0, 16}, REEFSPLICE_VERTICES);
    hold(call);
}

/* ---- the longest table */

/* 1,008 records: each vertex has the paths of two hops through the 16 vertices that follow it, 1 following 63. */
static void put_longest_table(uint8_t *table)
{
    for (unsigned i = 0; i < REEFSPLICE_MOST_RECORDS; i++) {
        uint8_t rank = (uint8_t)(i % 16 + 1), owner = (uint8_t)(i / 16 + 1), next = (owner + rank - 1) % 63 + 1;
        memcpy(table + REEFSPLICE_RECORD_BYTES * i, (const uint8_t[]){TWO_HOPS(rank, owner, next, 0)}, 16);
    }
}

static struct call *call_at_longest_table(enum entry entry, const char *name)
{
    struct call *call = call_of(entry, name, table_2, 0);
    put_longest_table(call->lent[TABLE].before);
    call->lent[TABLE].length = REEFSPLICE_MOST_TABLE_BYTES;
    call->listener = 1;
    call->speaker = 2;
    return call;
}

/* Nobody has a direct path, so all are stuck and wait for the one that follows, in a ring of 63. */
static void hold_longest_check(void)
{
    struct call *call = call_at_longest_table(CHECK, "longest-table");
    uint8_t *rows = filled(call, ROWS), *ring = filled(call, RING);
    put_empty_rows(rows);
    for (uint8_t v = 1; v < REEFSPLICE_VERTICES; v++) {
        memcpy(rows + REEFSPLICE_ROW_BYTES * v, (const uint8_t[]){255, 1, 2, v, v % 63 + 1, 0}, 6);
        ring[v - 1] = v;
    }
    ring[63] = U;
    put_words(filled(call, NUMBERS), (const uint32_t[8]){63, 0, 63, 0, 2}, 8);
    hold(call);
}

/* From zeros the speaker has no choice, and a run of no pair does nothing. */
static void hold_longest_idle(enum entry entry)
{
    struct call *call = call_at_longest_table(entry, "longest-table");
    memset(filled(call, NUMBERS), 0, REEFSPLICE_NUMBERS_BYTES);
    if (entry == RUN)
        memset(filled(call, SUMS), 0, REEFSPLICE_SUMS_BYTES);
    hold(call);
}

/* ---- refusals */

static uint64_t refusal(unsigned number, unsigned place)
{
    return number + 256u * place;
}

/* A step at a pair that listens in table 7, or such a run, so that nothing but the fault can be refused. */
static struct call *call_at_table_7(enum entry entry, const char *name)
{
    struct call *call = call_of(entry, name, table_7, sizeof table_7);
    call->listener = 1;
    lend(call, SCHEDULE, (const uint8_t[]){1, 0, 2, 1}, 4);
    return call;
}

/* Each buffer that an entry fills: empty, one byte short and one byte long. */
static void hold_other_length(enum entry entry, enum lent lent, size_t length, const char *name)
{
    struct call *call = call_at_table_7(entry, name);
    call->lent[lent].length = length;
    call->code = refusal(1, 0);
    hold(call);
}

static void hold_other_lengths(enum entry entry, enum lent lent, size_t right, const char *const names[3])
{
    hold_other_length(entry, lent, 0, names[0]);
    hold_other_length(entry, lent, right - 1, names[1]);
    hold_other_length(entry, lent, right + 1, names[2]);
}

static void hold_all_other_lengths(enum entry entry)
{
    static const char *const names[LENT][3] = {
        [HEARD] = {"heard-0", "heard-4095", "heard-4097"},
        [ROWS] = {"rows-0", "rows-1023", "rows-1025"},
        [RING] = {"ring-0", "ring-63", "ring-65"},
        [SUMS] = {"sums-0", "sums-255", "sums-257"},
        [NUMBERS] = {"numbers-0", "numbers-31", "numbers-33"},
    };
    static const size_t right[LENT] = {[HEARD] = 4096, [ROWS] = 1024, [RING] = 64, [SUMS] = 256, [NUMBERS] = 32};
    for (int i = 0; i < LENT; i++)
        if (right[i] > 0 && takes(entry, i))
            hold_other_lengths(entry, i, right[i], names[i]);
}

struct fault {
    const char *name;
    unsigned number, place;
    size_t length;
    uint8_t table[17 * REEFSPLICE_RECORD_BYTES];
};

/* Tables with a fault; what is not written of a longer one is 0. The first bad record decides, and in it the lowest
   number. */
static const struct fault faults[] = {
    {"bytes-16144", 2, 0, 16144, {ONE_HOP(1, 1, 0)}},
    {"bytes-16129", 2, 0, 16129, {ONE_HOP(1, 1, 0)}},
    {"bytes-17", 3, 0, 17, {ONE_HOP(1, 1, 0)}},
    {"bytes-15", 3, 0, 15, {ONE_HOP(1, 1, 0)}},
    {"hops-0", 4, 0, 16, {1, 0, 1, U, U, U, U, U, U, U, U, U, U, U, U, 0}},
    {"hops-13", 4, 1, 32, {ONE_HOP(1, 1, 0), 1, 13, 2, 3, 4, 5, 6, 7, 8, 9, 10, 11, 12, 13, 14, 0}},
    {"vertex-64", 5, 0, 16, {ONE_HOP(1, 64, 0)}},
    {"vertex-255", 5, 2, 48, {ONE_HOP(1, 1, 0), ONE_HOP(1, 2, 0), TWO_HOPS(1, 3, 255, 0)}},
    {"filler", 6, 1, 32, {ONE_HOP(1, 1, 0), 1, 1, 2, 0, U, U, U, U, U, U, U, U, U, U, 254, 0}},
    {"byte-15", 6, 0, 16, {1, 1, 1, 0, U, U, U, U, U, U, U, U, U, U, U, 255}},
    {"vertex-twice", 7, 1, 32, {ONE_HOP(1, 1, 0), TWO_HOPS(1, 2, 2, 0)}},
    {"owner-0", 7, 0, 16, {ONE_HOP(1, 0, 0)}},
    {"last-vertex", 8, 2, 48, {ONE_HOP(1, 1, 0), ONE_HOP(1, 2, 0), TWO_HOPS(1, 3, 1, 2)}},
    {"owners-1-2-1", 9, 2, 48, {ONE_HOP(1, 1, 0), ONE_HOP(1, 2, 0), TWO_HOPS(2, 1, 2, 0)}},
    {"rank-0", 10, 0, 16, {ONE_HOP(0, 1, 0)}},
    {"rank-2-first", 10, 1, 32, {ONE_HOP(1, 1, 0), ONE_HOP(2, 2, 0)}},
    {"rank-1-3", 10, 1, 32, {ONE_HOP(1, 1, 0), TWO_HOPS(3, 1, 2, 0)}},
    {"rank-17", 10, 16, 272,
     {TWO_HOPS(1, 1, 2, 0), TWO_HOPS(2, 1, 3, 0), TWO_HOPS(3, 1, 4, 0), TWO_HOPS(4, 1, 5, 0), TWO_HOPS(5, 1, 6, 0),
      TWO_HOPS(6, 1, 7, 0), TWO_HOPS(7, 1, 8, 0), TWO_HOPS(8, 1, 9, 0), TWO_HOPS(9, 1, 10, 0), TWO_HOPS(10, 1, 11, 0),
      TWO_HOPS(11, 1, 12, 0), TWO_HOPS(12, 1, 13, 0), TWO_HOPS(13, 1, 14, 0), TWO_HOPS(14, 1, 15, 0),
      TWO_HOPS(15, 1, 16, 0), TWO_HOPS(16, 1, 17, 0), ONE_HOP(17, 1, 0)}},
    {"same-path", 11, 2, 48, {ONE_HOP(1, 1, 0), TWO_HOPS(2, 1, 2, 0), ONE_HOP(3, 1, 0)}},
    {"first-bad-record", 11, 1, 48, {ONE_HOP(1, 1, 0), ONE_HOP(2, 1, 0), ONE_HOP(1, 64, 0)}},
    {"lowest-number", 5, 1, 32, {ONE_HOP(1, 2, 0), ONE_HOP(0, 1, 64)}},
};

static void hold_fault(enum entry entry, const struct fault *fault)
{
    struct call *call = call_at_table_7(entry, fault->name);
    memset(call->lent[TABLE].before, 0, MOST_BYTES);
    memcpy(call->lent[TABLE].before, fault->table, sizeof fault->table);
    call->lent[TABLE].length = fault->length;
    call->code = refusal(fault->number, fault->place);
    hold(call);
}

static void hold_faults(enum entry entry)
{
    for (size_t i = 0; i < COUNT(faults); i++)
        hold_fault(entry, &faults[i]);
}

static void hold_last_record(enum entry entry)
{
    struct call *call = call_at_longest_table(entry, "last-record");
    call->lent[TABLE].before[REEFSPLICE_MOST_TABLE_BYTES - 1] = 1;
    call->code = refusal(6, 1007);
    hold(call);
}

struct misheard {
    const char *name;
    unsigned place;
    size_t offsets[2];
    uint8_t bytes[2];
};

/* Over table 7: no byte at other than the four listening pairs, and none above what its speaker can say. */
static const struct misheard misheard[] = {
    {"heard-first-byte", 0, {0, 4095}, {1, 1}},
    {"heard-last-byte", 4095, {4095, 64}, {1, 1}},
    {"heard-no-pair", 66, {66, 4095}, {1, 0}},
    {"heard-from-0", 64, {HEARD_1_0, HEARD_2_0}, {2, 1}},
    {"heard-past-records", 129, {HEARD_2_1, 4095}, {2, 1}},
    {"heard-past-two", 194, {HEARD_3_2, HEARD_2_1}, {3, 1}},
};

static void hold_misheard(enum entry entry, const struct misheard *misheard)
{
    struct call *call = call_at_table_7(entry, misheard->name);
    for (int i = 0; i < 2; i++)
        call->lent[HEARD].before[misheard->offsets[i]] = misheard->bytes[i];
    call->code = refusal(12, misheard->place);
    hold(call);
}

static void hold_all_misheard(enum entry entry)
{
    for (size_t i = 0; i < COUNT(misheard); i++)
        hold_misheard(entry, &misheard[i]);
}

struct stray {
    const char *name;
    uint8_t listener, speaker;
};

/* In table 7 the pairs (1,0), (2,1), (2,0) and (3,2) listen, and no number wraps onto them. */
static const struct stray strays[] = {
    {"pair-1-2", 1, 2},   {"pair-0-0", 0, 0},     {"pair-4-0", 4, 0},         {"pair-65-0", 65, 0},
    {"pair-1-64", 1, 64}, {"pair-0-128", 0, 128}, {"pair-255-255", 255, 255},
};

static void hold_stray_step(const struct stray *stray)
{
    struct call *call = call_at_table_7(STEP, stray->name);
    call->listener = stray->listener;
    call->speaker = stray->speaker;
    call->code = refusal(14, 0);
    hold(call);
}

/* Behind two pairs that would have stored something. */
static void hold_stray_run(const struct stray *stray)
{
    struct call *call = call_at_table_7(RUN, stray->name);
    lend(call, SCHEDULE, (const uint8_t[]){1, 0, 2, 1, stray->listener, stray->speaker, 0, 1}, 8);
    call->code = refusal(14, 2);
    hold(call);
}

static void hold_strays(void)
{
    for (size_t i = 0; i < COUNT(strays); i++) {
        hold_stray_step(&strays[i]);
        hold_stray_run(&strays[i]);
    }
}

/* Of no pair that listens, since the length is judged first. */
static void hold_schedule_length(const char *name, size_t length)
{
    struct call *call = call_at_table_7(RUN, name);
    memset(call->lent[SCHEDULE].before, 3, MOST_BYTES);
    call->lent[SCHEDULE].length = length;
    call->code = refusal(13, 0);
    hold(call);
}

/* ---- which of two faults is named */

static void hold_buffer_before_table(enum entry entry)
{
    struct call *call = call_at_table_7(entry, "buffer-before-table");
    call->lent[TABLE].length = 17;
    call->lent[NUMBERS].length = 31;
    call->code = refusal(1, 0);
    hold(call);
}

static void hold_table_before_heard(enum entry entry)
{
    struct call *call = call_at_table_7(entry, "table-before-heard");
    call->lent[TABLE].length = 17;
    call->lent[HEARD].before[0] = 1;
    call->code = refusal(3, 0);
    hold(call);
}

static void hold_heard_before_pair(enum entry entry)
{
    struct call *call = call_at_table_7(entry, "heard-before-pair");
    call->lent[HEARD].before[4095] = 1;
    call->listener = 4;
    lend(call, SCHEDULE, (const uint8_t[]){4, 0, 1}, 3);
    call->code = refusal(12, 4095);
    hold(call);
}

/* ---- the whole */

static void hold_accepted(void)
{
    for (size_t i = 0; i < COUNT(checks); i++)
        hold_check(&checks[i]);
    for (size_t i = 0; i < COUNT(steps); i++)
        hold_step(&steps[i]);
    for (size_t i = 0; i < COUNT(runs); i++)
        hold_run(&runs[i]);
    hold_longest_run();
    hold_longest_check();
    hold_longest_idle(STEP);
    hold_longest_idle(RUN);
}

static void hold_refused(enum entry entry)
{
    hold_all_other_lengths(entry);
    hold_faults(entry);
    hold_last_record(entry);
    hold_buffer_before_table(entry);
    if (takes(entry, HEARD)) {
        hold_all_misheard(entry);
        hold_table_before_heard(entry);
        hold_heard_before_pair(entry);
    }
}

int main(void)
{
    hold_accepted();
    hold_refused(CHECK);
    hold_refused(STEP);
    hold_refused(RUN);
    hold_strays();
    hold_schedule_length("schedule-1", 1);
    hold_schedule_length("schedule-3", 3);
    hold_schedule_length("schedule-32769", 32769);
    hold_schedule_length("schedule-32770", 32770);
    return counted();
}
