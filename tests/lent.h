/* Buffers lent to the proved code, each between two edges that nothing may write to. */
#ifndef LENT_H
#define LENT_H
#include "lines.h"

struct lent {
    const char *name;
    uint8_t *all, *before; /* with the edges: as it is now, and as it was lent */
    uint8_t *bytes;        /* without the edges */
    size_t length;
    size_t may; /* how many bytes from the front on the call may have written */
};

/* A buffer with this content, turned: `turn` is 0, or 255 to change every bit. */
struct lent lend(const char *name, struct bytes content, uint8_t turn);

/* A buffer in which no byte is like its neighbours: the marks of `second check-batch`. */
struct lent lend_marked(const char *name, size_t length, uint8_t turn);

/* One call of the proved code: its number, and what was lent to it. */
struct called {
    uint64_t code;
    struct lent lent[4];
    size_t count;
};

/* `kept`, or the first thing of two calls that changed and should not have; the second one had turned buffers, and
   may answer in no other way. Gives the memory of both back. */
const char *around(struct called first, struct called turned);

#endif
