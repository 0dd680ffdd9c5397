/* Calls of the C entries, each with the code that it must return and the bytes that it must leave. */
#ifndef ENTRY_CALLS_H
#define ENTRY_CALLS_H
#include "reefsplice.h"
#include <stdbool.h>

enum entry { CHECK, STEP, RUN, ENTRIES };
enum lent { TABLE, HEARD, SCHEDULE, ROWS, RING, SUMS, NUMBERS, LENT };

/* The longest buffer of a case is a schedule of one pair too many. */
enum { MOST_BYTES = REEFSPLICE_MOST_SCHEDULE_BYTES + 2 };

struct buffer {
    size_t length;
    uint8_t before[MOST_BYTES];
    bool is_filled; /* whether the call leaves `after`, and not what was there */
    uint8_t after[MOST_BYTES];
};

struct call {
    enum entry entry;
    const char *name;
    uint8_t listener, speaker;
    uint64_t code;
    struct buffer lent[LENT];
};

/* Whether an entry takes such a buffer. */
bool takes(enum entry entry, enum lent lent);

/* A call over this table with an empty schedule, a heard state of zeros and other buffers of the right length; as it
   stands it must return 0 and change nothing. It is valid until the next. */
struct call *call_of(enum entry entry, const char *name, const uint8_t *table, size_t length);

/* What is lent of a buffer instead, with this content. */
void lend(struct call *call, enum lent lent, const uint8_t *content, size_t length);

/* A buffer afterwards, for the case to write to: what was lent, until then. */
uint8_t *filled(struct call *call, enum lent lent);

/* Calls the entry twice, and prints `ok ENTRY NAME CODE` or the first thing that is wrong. The second call has no edges
   around its buffers, so that a memory checker sees a read or write beside them, and other bytes in those that the
   entry only fills. The variable ENTRIES_TURN, as `check table-5 rows 33`, turns one bit of what is expected, which
   must be found; a place below 0 or past the end is in an edge, and `code 0` is the code. */
void hold(const struct call *call);

/* Prints the counts, and gives the exit status. */
int counted(void);

#endif
