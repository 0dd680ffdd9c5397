/* A collector over libreefsplice.a: collector TABLE SCHEDULE, both file names.

   It prints the check of the table as the check program does, the run of the schedule from zeros as the run program
   does, then for each settled router after how many rounds it is guaranteed to be where the check says, and whether the
   run had that many; at last it steps every listening pair once more and says whether that changed what was heard.
   A refusal is one line as `refused 9 record 2`, its words on standard error, and exit status 1; a wrong call, a file
   that cannot be read or an output that cannot be written is exit status 2. */
#include "reefsplice.h"
#include <inttypes.h>
#include <stdbool.h>
#include <stdio.h>
#include <string.h>

enum { DONE = 0, REFUSED = 1, FAILED = 2, RANK_AND_STANDING = 17 };

/* One byte more than allowed, so that a longer file is refused by the library and not cut off. */
struct review {
    uint8_t table[REEFSPLICE_MOST_TABLE_BYTES + 1], schedule[REEFSPLICE_MOST_SCHEDULE_BYTES + 1];
    size_t table_len, schedule_len;
    uint8_t rows[REEFSPLICE_ROWS_BYTES], ring[REEFSPLICE_RING_BYTES], checked[REEFSPLICE_NUMBERS_BYTES];
    uint8_t heard[REEFSPLICE_HEARD_BYTES], sums[REEFSPLICE_SUMS_BYTES], ran[REEFSPLICE_NUMBERS_BYTES];
};

static bool read_file(const char *name, uint8_t *bytes, size_t room, size_t *length)
{
    FILE *file = fopen(name, "rb");
    if (file == NULL) {
        perror(name);
        return false;
    }
    *length = fread(bytes, 1, room, file);
    bool is_read = !ferror(file);
    if (!is_read)
        perror(name);
    fclose(file);
    return is_read;
}

/* ---- what is printed of a refusal, a path and a row */

static const char *place_word(unsigned number)
{
    if (REEFSPLICE_REFUSED_HOPS <= number && number <= REEFSPLICE_REFUSED_SAME_PATH)
        return "record";
    if (number == REEFSPLICE_REFUSED_HEARD)
        return "offset";
    return number == REEFSPLICE_REFUSED_PAIR ? "pair" : NULL;
}

static int refused(uint64_t code)
{
    unsigned number = reefsplice_number(code);
    printf("refused %u", number);
    if (place_word(number) != NULL)
        printf(" %s %" PRIu32, place_word(number), reefsplice_place(code));
    printf("\n");
    fflush(stdout);
    fprintf(stderr, "collector: %s\n", reefsplice_words(number));
    return REFUSED;
}

static void print_vertices(const uint8_t *vertices, size_t count)
{
    for (size_t i = 0; i < count; i++)
        printf(" %u", vertices[i]);
    printf("\n");
}

/* Rank 0 is no path. */
static void print_path(unsigned rank, unsigned hops, const uint8_t *vertices)
{
    if (rank == 0) {
        printf(" none\n");
        return;
    }
    printf(" rank %u path", rank);
    print_vertices(vertices, hops + 1);
}

static const uint8_t *row_of(const struct review *review, unsigned vertex)
{
    return review->rows + REEFSPLICE_ROW_BYTES * vertex;
}

static bool is_present(const struct review *review, unsigned vertex)
{
    return row_of(review, vertex)[REEFSPLICE_ROW_STAGE] != REEFSPLICE_ABSENT;
}

static bool is_settled(const struct review *review, unsigned vertex)
{
    return is_present(review, vertex) && row_of(review, vertex)[REEFSPLICE_ROW_STAGE] != REEFSPLICE_STUCK;
}

/* ---- the check */

static void print_row(const struct review *review, unsigned vertex)
{
    const uint8_t *row = row_of(review, vertex);
    if (is_settled(review, vertex))
        printf("%u stage %u", vertex, row[REEFSPLICE_ROW_STAGE]);
    else
        printf("%u stuck", vertex);
    print_path(row[REEFSPLICE_ROW_RANK], row[REEFSPLICE_ROW_HOPS], row + REEFSPLICE_ROW_PATH);
}

static void print_check(const struct review *review)
{
    const uint8_t *numbers = review->checked;
    uint32_t ring_length = reefsplice_word(numbers, REEFSPLICE_CHECK_RING_LENGTH);
    printf("verdict %s settled %" PRIu32 " stuck %" PRIu32 " stages %" PRIu32 " longest %" PRIu32 "\n",
           ring_length == 0 ? "complete" : "stuck", reefsplice_word(numbers, REEFSPLICE_CHECK_SETTLED),
           reefsplice_word(numbers, REEFSPLICE_CHECK_STUCK), reefsplice_word(numbers, REEFSPLICE_CHECK_STAGES),
           reefsplice_word(numbers, REEFSPLICE_CHECK_LONGEST));
    for (unsigned vertex = 1; vertex < REEFSPLICE_VERTICES; vertex++)
        if (is_present(review, vertex))
            print_row(review, vertex);
    if (ring_length > 0) {
        printf("ring");
        print_vertices(review->ring, ring_length);
    }
}

/* ---- the run */

/* From zeros nobody has a choice, so a vertex's sum of movements is its standing now: 17 minus the rank of its choice,
   or 0 for none. */
static unsigned chosen_rank(const struct review *review, unsigned vertex)
{
    int32_t standing = reefsplice_signed_word(review->sums, vertex);
    return standing == 0 ? 0 : (unsigned)(RANK_AND_STANDING - standing);
}

/* The record of a vertex with that rank, or NULL. */
static const uint8_t *record_of(const struct review *review, unsigned vertex, unsigned rank)
{
    for (size_t at = 0; at < review->table_len; at += REEFSPLICE_RECORD_BYTES) {
        const uint8_t *record = review->table + at;
        if (record[REEFSPLICE_RECORD_PATH] == vertex && record[REEFSPLICE_RECORD_RANK] == rank)
            return record;
    }
    return NULL;
}

static void print_choice(const struct review *review, unsigned vertex)
{
    unsigned rank = chosen_rank(review, vertex);
    const uint8_t *record = record_of(review, vertex, rank);
    printf("%u sum %" PRId32, vertex, reefsplice_signed_word(review->sums, vertex));
    if (record == NULL)
        print_path(0, 0, NULL);
    else
        print_path(rank, record[REEFSPLICE_RECORD_HOPS], record + REEFSPLICE_RECORD_PATH);
}

static void print_run(const struct review *review)
{
    const uint8_t *numbers = review->ran;
    printf("run steps %" PRIu32 " ups %" PRIu32 " downs %" PRIu32 " last %" PRIu32 " rounds %" PRIu32 "\n",
           reefsplice_word(numbers, REEFSPLICE_RUN_STEPS), reefsplice_word(numbers, REEFSPLICE_RUN_UPS),
           reefsplice_word(numbers, REEFSPLICE_RUN_DOWNS), reefsplice_word(numbers, REEFSPLICE_RUN_LAST),
           reefsplice_word(numbers, REEFSPLICE_RUN_ROUNDS));
    for (unsigned vertex = 1; vertex < REEFSPLICE_VERTICES; vertex++)
        if (is_present(review, vertex))
            print_choice(review, vertex);
}

/* ---- what is guaranteed */

/* A router of stage k stays at what its row reports after k times L rounds. */
static void print_guarantees(const struct review *review)
{
    uint32_t longest = reefsplice_word(review->checked, REEFSPLICE_CHECK_LONGEST);
    uint32_t answered = reefsplice_word(review->ran, REEFSPLICE_RUN_ROUNDS);
    printf("guarantees, rounds answered: %" PRIu32 "\n", answered);
    for (unsigned vertex = 1; vertex < REEFSPLICE_VERTICES; vertex++) {
        if (!is_settled(review, vertex))
            continue;
        const uint8_t *row = row_of(review, vertex);
        uint32_t enough = row[REEFSPLICE_ROW_STAGE] * longest;
        bool is_as_reported = chosen_rank(review, vertex) == row[REEFSPLICE_ROW_RANK];
        printf("%u after %" PRIu32 " rounds: %s, now %s\n", vertex, enough, answered >= enough ? "reached" : "not yet",
               is_as_reported ? "as reported" : "otherwise");
    }
}

/* ---- one step more at every listening pair */

struct repeated {
    unsigned pairs, changed, ups, downs;
};

static uint64_t step_again(struct review *review, uint8_t listener, uint8_t speaker, struct repeated *repeated)
{
    uint8_t numbers[REEFSPLICE_NUMBERS_BYTES];
    const uint8_t *heard = review->heard + REEFSPLICE_VERTICES * listener + speaker;
    uint8_t before = *heard;
    uint64_t code = reefsplice_step(review->table, review->table_len, review->heard, sizeof review->heard, listener,
                                    speaker, numbers, sizeof numbers);
    if (code != REEFSPLICE_ACCEPTED)
        return code;
    int32_t movement = reefsplice_signed_word(numbers, REEFSPLICE_STEP_MOVEMENT);
    repeated->pairs++;
    repeated->changed += *heard != before;
    repeated->ups += movement > 0;
    repeated->downs += movement < 0;
    return code;
}

/* A vertex listens to the second vertex of each of its records; two records can name the same pair. */
static uint64_t step_all_again(struct review *review, struct repeated *repeated)
{
    bool is_stepped[REEFSPLICE_VERTICES][REEFSPLICE_VERTICES] = {{false}};
    for (size_t at = 0; at < review->table_len; at += REEFSPLICE_RECORD_BYTES) {
        const uint8_t *path = review->table + at + REEFSPLICE_RECORD_PATH;
        if (is_stepped[path[0]][path[1]])
            continue;
        is_stepped[path[0]][path[1]] = true;
        uint64_t code = step_again(review, path[0], path[1], repeated);
        if (code != REEFSPLICE_ACCEPTED)
            return code;
    }
    return REEFSPLICE_ACCEPTED;
}

/* Where no step changed a heard byte, no step ever will. */
static void print_repeated(const struct repeated *repeated)
{
    printf("again pairs %u changed %u ups %u downs %u: %s\n", repeated->pairs, repeated->changed, repeated->ups,
           repeated->downs, repeated->changed == 0 ? "the state rests" : "the state was not at rest");
}

/* ---- the whole */

static int collect(struct review *review)
{
    uint64_t code = reefsplice_check(review->table, review->table_len, review->rows, sizeof review->rows, review->ring,
                                     sizeof review->ring, review->checked, sizeof review->checked);
    if (code != REEFSPLICE_ACCEPTED)
        return refused(code);
    print_check(review);
    memset(review->heard, 0, sizeof review->heard);
    code = reefsplice_run(review->table, review->table_len, review->heard, sizeof review->heard, review->schedule,
                          review->schedule_len, review->sums, sizeof review->sums, review->ran, sizeof review->ran);
    if (code != REEFSPLICE_ACCEPTED)
        return refused(code);
    print_run(review);
    print_guarantees(review);
    struct repeated repeated = {0, 0, 0, 0};
    code = step_all_again(review, &repeated);
    if (code != REEFSPLICE_ACCEPTED)
        return refused(code);
    print_repeated(&repeated);
    return DONE;
}

int main(int count, char **words)
{
    static struct review review;
    if (count != 3) {
        fprintf(stderr, "usage: collector TABLE SCHEDULE\n");
        return FAILED;
    }
    if (!read_file(words[1], review.table, sizeof review.table, &review.table_len) ||
        !read_file(words[2], review.schedule, sizeof review.schedule, &review.schedule_len))
        return FAILED;
    int status = collect(&review);
    if (fflush(stdout) != 0 || ferror(stdout)) {
        perror("collector: standard output");
        return FAILED;
    }
    return status;
}
