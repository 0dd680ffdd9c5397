/* Reefsplice for C: the check of a path table, one step of the machine, and a run over a schedule.

   `./reefsplice lib` proves and builds libreefsplice.a, for x86-64. What the entries do is proved of their source;
   docs/PROOFS.md says what that rests on. This header is written by hand, and tests hold it to the library.

   Every entry
   - takes any bytes and any lengths, always returns, and keeps nothing from one call to the next;
   - returns 0 where it accepts, otherwise a code: the refusal's number plus 256 times its place;
   - where it accepts, leaves in each buffer what its declaration says; what stood in rows, ring, sums and numbers
     before makes no difference;
   - where it refuses, changes no byte of anything it is lent, numbers and sums too;
   - never changes a table or a schedule.

   The caller owes what no entry can see:
   - each pointer is good for as many bytes as the length behind it says;
   - no pointer is NULL, not even where its length is 0, since the compiled code may rely on that;
   - a buffer that is lent for writing (without const) overlaps no other buffer of the same call;
   - no other thread writes to a buffer during the call, or reads one that is lent for writing;
   - there is room on the stack: docs/PERFORMANCE.md has the bytes that each entry takes. */
#ifndef REEFSPLICE_H
#define REEFSPLICE_H

#include <stddef.h>
#include <stdint.h>

/* A table is at most 1,008 records and nothing else. A record is one permitted path: its rank (1 is best), its hops h
   (1 to 12), h+1 vertices (owner first, destination 0 last), then 255 to byte 14, and 0 in byte 15. Owners rise
   through the table, and each owner's ranks run 1, 2, 3 without gap. */
#define REEFSPLICE_VERTICES 64
#define REEFSPLICE_RECORD_BYTES 16
#define REEFSPLICE_MOST_RECORDS 1008
#define REEFSPLICE_MOST_TABLE_BYTES 16128
enum { REEFSPLICE_RECORD_RANK = 0, REEFSPLICE_RECORD_HOPS = 1, REEFSPLICE_RECORD_PATH = 2 };

/* The row of vertex v has 16 bytes, from 16 times v on: its stage or a mark, rank, hops, then the vertices of its path
   and 255 behind them. The path is the settled one, or a stuck vertex's best compatible path. Rank 0, hops 0 and no
   vertex: absent, or settled without a path. Row 0 has stage 0, rank 0, hops 0 and the vertex 0. */
#define REEFSPLICE_ROWS_BYTES 1024
#define REEFSPLICE_ROW_BYTES 16
enum { REEFSPLICE_ROW_STAGE = 0, REEFSPLICE_ROW_RANK = 1, REEFSPLICE_ROW_HOPS = 2, REEFSPLICE_ROW_PATH = 3 };
#define REEFSPLICE_ABSENT 254 /* in place of a stage: no record names this vertex */
#define REEFSPLICE_STUCK 255  /* in place of a stage */
#define REEFSPLICE_UNUSED 255 /* in place of a vertex, in rows, ring and records */

/* The ring holds its vertices, the lowest first and each one's next hop behind it, then 255. */
#define REEFSPLICE_RING_BYTES 64

/* The heard state's byte at 64 times v plus u is what v last heard from u: 0 for nothing, otherwise the rank of that
   path of u; for u = 0 the value 1 means the path (0). All zeros is valid for every table. A vertex chooses its best
   path whose rest is what it last heard from the next hop; its standing is 17 minus the rank of its choice, or 0. */
#define REEFSPLICE_HEARD_BYTES 4096

/* A schedule is a list of pairs, two bytes each, listener first; the empty one is fine. */
#define REEFSPLICE_MOST_SCHEDULE_BYTES 32768

/* Sums and numbers are words of four bytes, low byte first, negative ones in two's complement: 64 sums, one for each
   vertex, and 8 numbers, of which those that an entry does not name are 0. */
#define REEFSPLICE_SUMS_BYTES 256
#define REEFSPLICE_NUMBERS_BYTES 32

/* The words of an entry's numbers, for reefsplice_word, and for reefsplice_signed_word where they are signed. */
enum {
    REEFSPLICE_CHECK_RING_LENGTH = 0, /* vertices of the ring; 0 where the table is complete */
    REEFSPLICE_CHECK_SETTLED = 1,     /* settled vertices, without vertex 0 */
    REEFSPLICE_CHECK_STUCK = 2,       /* stuck vertices */
    REEFSPLICE_CHECK_STAGES = 3,      /* s: how many stages had a vertex enter */
    REEFSPLICE_CHECK_LONGEST = 4      /* L: the hops of the longest path */
};
enum {
    REEFSPLICE_STEP_MOVEMENT = 0 /* signed, -16 to 16: the listener's new standing minus its old */
};
enum {
    REEFSPLICE_RUN_STEPS = 0, /* pairs activated */
    REEFSPLICE_RUN_UPS = 1,   /* steps with a movement above 0 */
    REEFSPLICE_RUN_DOWNS = 2, /* steps with a movement below 0 */
    REEFSPLICE_RUN_LAST = 3,  /* the last step that changed a choice, from 1; 0 where none did */
    REEFSPLICE_RUN_ROUNDS = 4 /* one closes when every listening pair has been activated since the last closing */
};

/* Refusal numbers, in the order of checking. The first bad record decides. Records and pairs count from 0. */
enum {
    REEFSPLICE_ACCEPTED = 0,
    REEFSPLICE_REFUSED_BUFFER = 1, /* a lent rows, ring, state or movement buffer, or a C entry's buffer of numbers, has
                                      another length; place 0 */
    REEFSPLICE_REFUSED_TABLE_LONG = 2,   /* table longer than 16,128 bytes; place 0 */
    REEFSPLICE_REFUSED_TABLE_RAGGED = 3, /* table length not a multiple of 16; place 0 */
    REEFSPLICE_REFUSED_HOPS = 4,         /* hops not 1 to 12; place: record */
    REEFSPLICE_REFUSED_VERTEX = 5,       /* one of the h+1 vertices above 63; place: record */
    REEFSPLICE_REFUSED_FILLER = 6,       /* an unused byte not 255, or byte 15 not 0; place: record */
    REEFSPLICE_REFUSED_VERTEX_TWICE = 7, /* a vertex twice in the path; place: record */
    REEFSPLICE_REFUSED_LAST_VERTEX = 8,  /* last vertex not 0; place: record */
    REEFSPLICE_REFUSED_OWNER = 9,        /* owner below the previous record's owner; place: record */
    REEFSPLICE_REFUSED_RANK = 10,        /* rank above 16, or not 1 for a new owner, or not the previous rank plus 1;
                                            place: record */
    REEFSPLICE_REFUSED_SAME_PATH = 11,   /* same path as an earlier record of this owner; place: record */
    REEFSPLICE_REFUSED_HEARD = 12,       /* heard state not valid; place: lowest bad offset */
    REEFSPLICE_REFUSED_SCHEDULE = 13,    /* schedule length odd or above 32,768 bytes; place 0 */
    REEFSPLICE_REFUSED_PAIR = 14         /* pair is not a listening pair; place: pair number, 0 for the step */
};

#ifdef __cplusplus
extern "C" {
#endif

/* Checks a table: which vertices must settle, at which stage and on which path, which are stuck, and in which ring
   they wait for each other. Refuses with 1 to 11; 1 where rows, ring or numbers have another length than
   REEFSPLICE_ROWS_BYTES, REEFSPLICE_RING_BYTES, REEFSPLICE_NUMBERS_BYTES. Where it accepts, every byte of rows, ring
   and numbers is written: rows and ring as above, the ring 255 throughout where the table is complete; the numbers of
   REEFSPLICE_CHECK_.., then zeros. */
uint64_t reefsplice_check(const uint8_t *table, size_t table_len, uint8_t *rows, size_t rows_len, uint8_t *ring,
                          size_t ring_len, uint8_t *numbers, size_t numbers_len);

/* One step: the listener hears the speaker's present choice. Refuses with 1 to 12 and 14; 1 where heard or numbers
   have another length than REEFSPLICE_HEARD_BYTES, REEFSPLICE_NUMBERS_BYTES. Where it accepts, the heard byte at 64
   times the listener plus the speaker is the rank of that choice (0 for none, 1 for vertex 0's) and every other is as
   it was; the numbers are the movement, then zeros. */
uint64_t reefsplice_step(const uint8_t *table, size_t table_len, uint8_t *heard, size_t heard_len, uint8_t listener,
                         uint8_t speaker, uint8_t *numbers, size_t numbers_len);

/* A step for each pair of the schedule, in its order. Refuses with 1 to 14, and judges the whole schedule before the
   first step; 1 where heard, sums or numbers have another length than REEFSPLICE_HEARD_BYTES, REEFSPLICE_SUMS_BYTES,
   REEFSPLICE_NUMBERS_BYTES. Where it accepts, heard is the state after the last step, sums has each vertex's sum of
   movements, and the numbers are those of REEFSPLICE_RUN_.., then zeros.

   What to plan by: let the check of a table say stage k for a router. From every valid heard state, once accepted runs
   (each going on from the heard state that the one before left) have answered k times L rounds in all, the router
   chooses what its row reports, and no later step changes that. So it is once the pairs of all accepted runs and
   steps, in their order, contain k times L rounds, one after the other, each with every listening pair in it. */
uint64_t reefsplice_run(const uint8_t *table, size_t table_len, uint8_t *heard, size_t heard_len,
                        const uint8_t *schedule, size_t schedule_len, uint8_t *sums, size_t sums_len, uint8_t *numbers,
                        size_t numbers_len);

#ifdef __cplusplus
}
#endif

/* The refusal number of a code, 0 where the call was accepted. */
static inline unsigned reefsplice_number(uint64_t code)
{
    return (unsigned)(code & 255);
}

/* The place of a code. It has 24 bits: a later refusal may bring a second number, from bit 32 on, which is 0 today. */
static inline uint32_t reefsplice_place(uint64_t code)
{
    return (uint32_t)(code >> 8 & 0xffffff);
}

/* What a refusal number says, in the words above. */
static inline const char *reefsplice_words(unsigned number)
{
    static const char *const words[] = {
        "accepted",
        "a lent rows, ring, state or movement buffer, or a C entry's buffer of numbers, has another length",
        "table longer than 16,128 bytes",
        "table length not a multiple of 16",
        "hops not 1 to 12",
        "one of the h+1 vertices above 63",
        "an unused byte not 255, or byte 15 not 0",
        "a vertex twice in the path",
        "last vertex not 0",
        "owner below the previous record's owner",
        "rank above 16, or not 1 for a new owner, or not the previous rank plus 1",
        "same path as an earlier record of this owner",
        "heard state not valid",
        "schedule length odd or above 32,768 bytes",
        "pair is not a listening pair",
    };
    return number < sizeof words / sizeof *words ? words[number] : "no refusal of this library";
}

/* Word `index` of sums or numbers. */
static inline uint32_t reefsplice_word(const uint8_t *bytes, size_t index)
{
    const uint8_t *at = bytes + 4 * index;
    return (uint32_t)at[0] | (uint32_t)at[1] << 8 | (uint32_t)at[2] << 16 | (uint32_t)at[3] << 24;
}

/* The same, of a signed word. It goes by cases, since C leaves open what a cast of 2^31 or more gives. */
static inline int32_t reefsplice_signed_word(const uint8_t *bytes, size_t index)
{
    uint32_t word = reefsplice_word(bytes, index);
    return word < 0x80000000u ? (int32_t)word : -(int32_t)(0xffffffffu - word) - 1;
}

#endif
