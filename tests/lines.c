/* See lines.h. */
#define _POSIX_C_SOURCE 200809L /* for getline, since a line may have any length */
#include "lines.h"
#include <stdio.h>
#include <stdlib.h>
#include <string.h>
#include <sys/types.h>

enum { MOST_FIELDS = 4 };

/* A bad line ends the run, so that no case is passed over. */
static void refuse(const char *why)
{
    fprintf(stderr, "%s\n", why);
    exit(2);
}

void *room_for(size_t length)
{
    void *room = malloc(length == 0 ? 1 : length);
    if (room == NULL)
        refuse("no memory");
    return room;
}

static unsigned digit(char c)
{
    if ('0' <= c && c <= '9')
        return (unsigned)(c - '0');
    if (c < 'a' || 'f' < c)
        refuse("not a lowercase hex digit");
    return (unsigned)(c - 'a') + 10;
}

/* Each field has memory of exactly its own size, so that a memory checker can see a read past its end. */
static struct bytes decode(const char *digits, size_t count)
{
    if (count % 2 != 0)
        refuse("an odd number of hex digits");
    struct bytes field = {room_for(count / 2), count / 2};
    for (size_t i = 0; i < field.length; i++)
        field.bytes[i] = (uint8_t)(16 * digit(digits[2 * i]) + digit(digits[2 * i + 1]));
    return field;
}

static void decode_fields(const char *line, size_t count, struct bytes *fields)
{
    for (size_t i = 0; i < count; i++) {
        size_t length = strcspn(line, " ");
        fields[i] = decode(line, length);
        line += length;
        if (*line != (i + 1 < count ? ' ' : '\0'))
            refuse("another number of fields");
        line++;
    }
}

/* The fields are lent for reading alone, so each must be what a second decoding gives. */
static void hand_over(const char *line, size_t count, void (*answer)(const struct bytes *))
{
    struct bytes fields[MOST_FIELDS], again[MOST_FIELDS];
    decode_fields(line, count, fields);
    decode_fields(line, count, again);
    answer(fields);
    for (size_t i = 0; i < count; i++) {
        if (memcmp(fields[i].bytes, again[i].bytes, fields[i].length) != 0)
            exit(3);
        free(fields[i].bytes);
        free(again[i].bytes);
    }
}

int each_case(size_t count, void (*answer)(const struct bytes *fields))
{
    char *line = NULL;
    size_t room = 0;
    ssize_t length;
    while ((length = getline(&line, &room, stdin)) >= 0) {
        if (length > 0 && line[length - 1] == '\n')
            line[length - 1] = '\0';
        hand_over(line, count, answer);
    }
    free(line);
    return fflush(stdout) == 0 ? 0 : 2;
}

void print_hex(const uint8_t *bytes, size_t length)
{
    static const char digits[] = "0123456789abcdef";
    putchar(' ');
    if (length == 0)
        putchar('-');
    for (size_t i = 0; i < length; i++) {
        putchar(digits[bytes[i] / 16]);
        putchar(digits[bytes[i] % 16]);
    }
}
