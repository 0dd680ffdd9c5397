/* See lent.h. */
#include "lent.h"
#include <stdio.h>
#include <stdlib.h>
#include <string.h>

enum { EDGE = 256 };

static uint8_t mark(size_t at)
{
    return (uint8_t)(165 + 7 * at);
}

static struct lent lend_any(const char *name, size_t length, uint8_t turn)
{
    size_t whole = length + 2 * EDGE;
    struct lent lent = {name, room_for(whole), room_for(whole), NULL, length, 0};
    lent.bytes = lent.all + EDGE;
    for (size_t at = 0; at < whole; at++)
        lent.all[at] = mark(at - EDGE) ^ turn;
    return lent;
}

struct lent lend_marked(const char *name, size_t length, uint8_t turn)
{
    struct lent lent = lend_any(name, length, turn);
    memcpy(lent.before, lent.all, length + 2 * EDGE);
    return lent;
}

struct lent lend(const char *name, struct bytes content, uint8_t turn)
{
    struct lent lent = lend_any(name, content.length, turn);
    for (size_t at = 0; at < content.length; at++)
        lent.bytes[at] = content.bytes[at] ^ turn;
    memcpy(lent.before, lent.all, content.length + 2 * EDGE);
    return lent;
}

static int is_changed(struct lent lent, size_t from, size_t to)
{
    return memcmp(lent.all + from, lent.before + from, to - from) != 0;
}

/* On which side of what it may write a call wrote, or NULL. */
static const char *spilled_side(struct lent lent)
{
    if (lent.may > lent.length)
        return "length";
    if (is_changed(lent, 0, EDGE))
        return "before";
    if (is_changed(lent, EDGE + lent.may, EDGE + lent.length))
        return "rest";
    if (is_changed(lent, EDGE + lent.length, lent.length + 2 * EDGE))
        return "after";
    return NULL;
}

static const char *spilled(struct called c)
{
    static char said[64];
    for (size_t i = 0; i < c.count; i++) {
        const char *side = spilled_side(c.lent[i]);
        if (side != NULL) {
            snprintf(said, sizeof said, "%s-%s", c.lent[i].name, side);
            return said;
        }
    }
    return NULL;
}

/* Only what may be written is compared; `spilled` tells of the rest. */
static int is_alike(struct called a, struct called b)
{
    for (size_t i = 0; i < a.count; i++)
        if (a.lent[i].may != b.lent[i].may || memcmp(a.lent[i].bytes, b.lent[i].bytes, a.lent[i].may) != 0)
            return 0;
    return a.code == b.code;
}

static void give_back(struct called c)
{
    for (size_t i = 0; i < c.count; i++) {
        free(c.lent[i].all);
        free(c.lent[i].before);
    }
}

const char *around(struct called first, struct called turned)
{
    const char *found = spilled(first);
    if (found == NULL)
        found = spilled(turned);
    if (found == NULL)
        found = is_alike(first, turned) ? "kept" : "answer-by-what-was-there";
    give_back(first);
    give_back(turned);
    return found;
}
