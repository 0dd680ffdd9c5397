/* Faults planted into the proved step and run. It is linked with ld's --wrap, so that every call goes through here.
   A wrong run is made of the wrong steps, since a wrong program would be. */
#include "planting.h"
#include "probe.h"
#include "reefsplice.h"
#include <string.h>

enum { VERTICES = REEFSPLICE_VERTICES, HEARD_BYTES = REEFSPLICE_HEARD_BYTES };
enum { SUMS_BYTES = REEFSPLICE_SUMS_BYTES, NUMBERS_BYTES = REEFSPLICE_NUMBERS_BYTES };
enum { STEPS, UPS, DOWNS, LAST, ROUNDS, NUMBERS };
enum { BAD_STATE = 12, BAD_LENGTH = 13, BAD_PAIR = 14 };

__typeof__(reefsplice_step) __real_reefsplice_step, __wrap_reefsplice_step;
__typeof__(reefsplice_run) __real_reefsplice_run, __wrap_reefsplice_run;
__typeof__(probe_run_text) __real_probe_run_text, __wrap_probe_run_text;

/* ---- wrong steps */

/* The state without what stands at pairs that do not listen, for a program that looks at listening pairs alone. */
static void clear_unheard(const uint8_t *table, size_t length, uint8_t *heard)
{
    for (size_t at = 0; at < HEARD_BYTES; at++)
        if (heard[at] != 0 && probe_listens(table, length, at) == 0)
            heard[at] = 0;
}

/* An accepted step, turned into a wrong one: `before` is the byte that was heard. Gives the movement to answer with. */
static int32_t plant_step(uint8_t *heard, uint8_t v, uint8_t u, uint8_t before, int32_t movement)
{
    uint8_t *stored = &heard[VERTICES * v + u];
    int is_withdrawn = is_planted("keeps-withdrawn-choice") && movement < 0;
    if (is_planted("stores-nothing") || is_withdrawn)
        *stored = before;
    if (is_planted("stores-elsewhere-too"))
        heard[VERTICES] = 1;
    if (is_planted("stores-next-to-it"))
        heard[VERTICES * v + u + 1] = *stored, *stored = before;
    return is_withdrawn ? 0 : is_planted("sign-turned") ? -movement : movement;
}

static uint64_t wrong_step(const uint8_t *table, size_t table_len, uint8_t *heard, size_t heard_len, uint8_t v,
                           uint8_t u, uint8_t *numbers, size_t numbers_len)
{
    if (is_planted("vertices-wrap"))
        v %= VERTICES, u %= VERTICES;
    if (is_planted("pair-wraps"))
        v = (uint8_t)((v + u / VERTICES) % VERTICES), u %= VERTICES;
    uint8_t before = v < VERTICES && u < VERTICES && heard_len == HEARD_BYTES ? heard[VERTICES * v + u] : 0;
    uint64_t code = __real_reefsplice_step(table, table_len, heard, heard_len, v, u, numbers, numbers_len);
    if (code == 0)
        put_word(numbers, 0, plant_step(heard, v, u, before, word_at(numbers, 0)));
    return code;
}

uint64_t __wrap_reefsplice_step(const uint8_t *table, size_t table_len, uint8_t *heard, size_t heard_len,
                                uint8_t listener, uint8_t speaker, uint8_t *numbers, size_t numbers_len)
{
    int turned = is_turned(numbers, numbers_len);
    if (is_planted("state-judged-where-heard") && heard_len == HEARD_BYTES)
        clear_unheard(table, table_len, heard);
    uint64_t code = wrong_step(table, table_len, heard, heard_len, listener, speaker, numbers, numbers_len);
    if (code == 0)
        plant_numbers(numbers, 1);
    else if (is_planted("moves-refused"))
        memset(numbers, 0, numbers_len);
    if (code == 0 && turned)
        plant("what-was-there", heard, 0);
    if (is_planted("bad-pair-has-a-place") && code == BAD_PAIR)
        code += 256;
    plant_around("heard", heard, heard_len);
    plant_around("numbers", numbers, numbers_len);
    plant_input("table-byte", table, table_len);
    return plant_code(code);
}

/* ---- wrong runs */

/* What a run is lent. */
struct run {
    const uint8_t *table;
    size_t table_len;
    uint8_t *heard;
    size_t heard_len;
    const uint8_t *schedule;
    size_t schedule_len;
    uint8_t *sums;
    size_t sums_len;
    uint8_t *numbers;
    size_t numbers_len;
};

static uint64_t real_run(struct run r)
{
    return __real_reefsplice_run(r.table, r.table_len, r.heard, r.heard_len, r.schedule, r.schedule_len, r.sums,
                                 r.sums_len, r.numbers, r.numbers_len);
}

static uint64_t real_run_of(struct run r, size_t schedule_len)
{
    r.schedule_len = schedule_len;
    return real_run(r);
}

static int is_step_planted(void)
{
    static const char *faults[] = {"stores-nothing", "keeps-withdrawn-choice", "stores-elsewhere-too",
                                   "stores-next-to-it", "sign-turned"};
    for (size_t i = 0; i < sizeof faults / sizeof *faults; i++)
        if (is_planted(faults[i]))
            return 1;
    return 0;
}

/* All that steps add up to. */
static void clear_counts(struct run r)
{
    memset(r.sums, 0, SUMS_BYTES);
    put_word(r.numbers, UPS, 0);
    put_word(r.numbers, DOWNS, 0);
    put_word(r.numbers, LAST, 0);
}

/* An accepted schedule by wrong steps; the rounds stay. */
static void run_by_steps(struct run r)
{
    clear_counts(r);
    for (size_t at = 0; at < r.schedule_len; at += 2) {
        uint8_t v = r.schedule[at], u = r.schedule[at + 1], step[NUMBERS_BYTES];
        wrong_step(r.table, r.table_len, r.heard, HEARD_BYTES, v, u, step, sizeof step);
        int32_t movement = word_at(step, 0);
        add_word(r.sums, v, movement);
        add_word(r.numbers, UPS, movement > 0);
        add_word(r.numbers, DOWNS, movement < 0);
        if (movement != 0)
            put_word(r.numbers, LAST, (int32_t)(at / 2 + 1));
    }
}

static int32_t listening_pairs(struct run r)
{
    int32_t found = 0;
    for (size_t at = 0; at < HEARD_BYTES; at++)
        found += (int32_t)probe_listens(r.table, r.table_len, at);
    return found;
}

static void plant_counts(struct run r)
{
    add_word(r.numbers, STEPS, is_planted("invented-steps"));
    add_word(r.numbers, UPS, is_planted("invented-ups"));
    add_word(r.numbers, DOWNS, is_planted("invented-downs"));
    add_word(r.numbers, ROUNDS, is_planted("invented-rounds"));
    if (is_planted("last-is-steps"))
        put_word(r.numbers, LAST, word_at(r.numbers, STEPS));
    if (is_planted("last-counts-from-0") && word_at(r.numbers, LAST) > 0)
        add_word(r.numbers, LAST, -1);
    if (is_planted("rounds-never-close"))
        put_word(r.numbers, ROUNDS, 0);
    /* By so many activations, and not by so many different ones. */
    if (is_planted("rounds-close-early"))
        put_word(r.numbers, ROUNDS, word_at(r.numbers, STEPS) / listening_pairs(r));
}

static void plant_sums(uint8_t *sums, const uint8_t *before)
{
    for (size_t v = 0; v < VERTICES; v++) {
        if (is_planted("adds-to-sums"))
            add_word(sums, v, word_at(before, v));
        if (is_planted("sums-of-movers-only") && word_at(sums, v) == 0)
            put_word(sums, v, word_at(before, v));
    }
    /* As many bytes as there are vertices. */
    if (is_planted("sums-of-64-bytes"))
        memcpy(sums + VERTICES, before + VERTICES, SUMS_BYTES - VERTICES);
    plant("sums-first-byte", sums, 0);
    plant("sums-last-byte", sums, SUMS_BYTES - 1);
    plant_words("sums", sums, VERTICES);
}

/* An accepted run again, by a wrong program: `heard` and `sums` are as they were before it. */
static void plant_accepted(struct run r, const uint8_t *heard, const uint8_t *sums)
{
    if (is_planted("first-pair-only") || is_step_planted())
        memcpy(r.heard, heard, HEARD_BYTES);
    if (is_planted("first-pair-only")) {
        real_run_of(r, 2);
        put_word(r.numbers, STEPS, (int32_t)(r.schedule_len / 2));
    }
    if (is_step_planted())
        run_by_steps(r);
    plant_counts(r);
    plant_numbers(r.numbers, NUMBERS);
    plant_sums(r.sums, sums);
}

/* A refused run, and what a program answers that judges in another order or too little. */
static uint64_t plant_refused(struct run r, uint64_t code)
{
    uint64_t number = code % 256, place = code / 256;
    if (is_planted("odd-byte-passed-over") && number == BAD_LENGTH)
        return real_run_of(r, r.schedule_len - 1);
    if (is_planted("last-pair-not-judged") && number == BAD_PAIR && 2 * place + 2 == r.schedule_len)
        return real_run_of(r, r.schedule_len - 2);
    if (is_planted("stores-before-judging") && number == BAD_PAIR)
        real_run_of(r, 2 * place);
    if (is_planted("judges-schedule-first") && number == BAD_STATE) {
        uint8_t zeros[HEARD_BYTES] = {0}, sums[SUMS_BYTES];
        r.heard = zeros;
        r.sums = sums;
        uint64_t other = real_run(r);
        return other == 0 ? code : other;
    }
    return code;
}

static uint64_t wrong_run(struct run r)
{
    uint8_t heard[HEARD_BYTES], sums[SUMS_BYTES];
    if (r.heard_len == sizeof heard && r.sums_len == sizeof sums) {
        memcpy(heard, r.heard, sizeof heard);
        memcpy(sums, r.sums, sizeof sums);
    }
    uint64_t code = real_run(r);
    if (code != 0)
        return plant_refused(r, code);
    plant_accepted(r, heard, sums);
    return 0;
}

/* The numbers of a wrong run that is refused are seen by nobody. */
static uint64_t wrong_run_apart(struct run r)
{
    uint8_t numbers[NUMBERS_BYTES], *lent = r.numbers;
    if (r.numbers_len == sizeof numbers)
        r.numbers = numbers;
    uint64_t code = wrong_run(r);
    if (code == 0)
        memcpy(lent, numbers, sizeof numbers);
    return code;
}

uint64_t __wrap_reefsplice_run(const uint8_t *table, size_t table_len, uint8_t *heard, size_t heard_len,
                               const uint8_t *schedule, size_t schedule_len, uint8_t *sums, size_t sums_len,
                               uint8_t *numbers, size_t numbers_len)
{
    int turned = is_turned(numbers, numbers_len);
    if (is_planted("state-judged-where-heard") && heard_len == HEARD_BYTES)
        clear_unheard(table, table_len, heard);
    struct run r = {table, table_len, heard, heard_len, schedule, schedule_len, sums, sums_len, numbers, numbers_len};
    uint64_t code = wrong_run_apart(r);
    if (code != 0 && is_planted("moves-refused"))
        memset(numbers, 0, numbers_len);
    if (code != 0 && is_planted("clears-sums"))
        memset(sums, 0, sums_len);
    if (code == 0 && turned)
        plant("what-was-there", sums, 4);
    plant_around("heard", heard, heard_len);
    plant_around("sums", sums, sums_len);
    plant_around("numbers", numbers, numbers_len);
    plant_input("table-byte", table, table_len);
    plant_input("schedule-byte", schedule, schedule_len);
    return plant_code(code);
}

uint64_t __wrap_probe_run_text(const uint8_t *table, size_t length, const uint8_t *schedule, size_t schedule_length,
                               uint8_t *text, size_t text_length)
{
    uint64_t written = __real_probe_run_text(table, length, schedule, schedule_length, text, text_length);
    return plant_text(written, text, text_length);
}
