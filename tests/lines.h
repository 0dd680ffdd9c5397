/* Cases from standard input and answers to standard output, a line each, for the C programs of the tests. */
#ifndef LINES_H
#define LINES_H
#include <stddef.h>
#include <stdint.h>

struct bytes {
    uint8_t *bytes;
    size_t length;
};

/* Hands each case to `answer`: so many fields in lowercase hex, with a space between two; an empty one has no bytes.
   Gives the exit status. A line that is no case ends the run with status 2, and a changed field with status 3. */
int each_case(size_t count, void (*answer)(const struct bytes *fields));

/* A space and two digits for each byte; no bytes are a dash, so that no field is empty. */
void print_hex(const uint8_t *bytes, size_t length);

/* Memory for so many bytes, at least one. */
void *room_for(size_t length);

#endif
