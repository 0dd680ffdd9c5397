/* See planting.h. */
#include "planting.h"
#include "reefsplice.h"
#include <stdio.h>
#include <stdlib.h>
#include <string.h>

enum { WORD_BYTES = 4 };

int is_planted(const char *fault)
{
    const char *planted = getenv("PLANT");
    return planted != NULL && strcmp(planted, fault) == 0;
}

/* The fault NAME-FAULT. */
static int is_planted_in(const char *name, const char *fault)
{
    char whole[64];
    snprintf(whole, sizeof whole, "%s-%s", name, fault);
    return is_planted(whole);
}

void plant(const char *fault, uint8_t *bytes, ptrdiff_t at)
{
    if (is_planted(fault))
        bytes[at] ^= 1;
}

void plant_input(const char *fault, const uint8_t *input, size_t length)
{
    if (is_planted(fault) && length > 0)
        *(uint8_t *)input = 77;
}

void plant_around(const char *name, uint8_t *bytes, size_t length)
{
    if (is_planted_in(name, "before"))
        bytes[-1] ^= 1;
    if (is_planted_in(name, "after"))
        bytes[length] ^= 1;
}

uint64_t plant_code(uint64_t code)
{
    if (is_planted("aborts"))
        abort();
    while (is_planted("stays")) {
    }
    if (is_planted("any-length") && code == 1)
        return 0;
    return code + (is_planted("number") ? 1 : is_planted("place") ? 256 : 0);
}

uint64_t plant_text(uint64_t written, uint8_t *text, size_t text_length)
{
    plant("text-byte", text, (ptrdiff_t)written - 2);
    plant("text-rest", text, (ptrdiff_t)written);
    plant_around("text", text, text_length);
    return is_planted("text-short") ? written - 1 : is_planted("text-long") ? UINT64_MAX : written;
}

int is_turned(const void *marked, size_t length)
{
    return length > 0 && *(const uint8_t *)marked != 165;
}

int32_t word_at(const uint8_t *bytes, size_t at)
{
    const uint8_t *word = bytes + WORD_BYTES * at;
    return (int32_t)(word[0] | word[1] << 8 | word[2] << 16 | (uint32_t)word[3] << 24);
}

void put_word(uint8_t *bytes, size_t at, int32_t word)
{
    for (size_t i = 0; i < WORD_BYTES; i++)
        bytes[WORD_BYTES * at + i] = (uint8_t)((uint32_t)word >> 8 * i);
}

void add_word(uint8_t *bytes, size_t at, int32_t more)
{
    put_word(bytes, at, (int32_t)((uint32_t)word_at(bytes, at) + (uint32_t)more));
}

void plant_words(const char *name, uint8_t *bytes, size_t count)
{
    for (size_t at = 0; at < count; at++) {
        int32_t word = word_at(bytes, at);
        if (is_planted_in(name, "turned"))
            put_word(bytes, at, (int32_t)__builtin_bswap32((uint32_t)word));
        if (is_planted_in(name, "one-byte"))
            put_word(bytes, at, (uint8_t)word);
    }
}

void plant_numbers(uint8_t *numbers, size_t taken)
{
    plant("numbers-byte", numbers, 0);
    plant("numbers-high-byte", numbers, WORD_BYTES - 1);
    plant("numbers-rest-first", numbers, (ptrdiff_t)(WORD_BYTES * taken));
    plant("numbers-rest-last", numbers, REEFSPLICE_NUMBERS_BYTES - 1);
    plant_words("numbers", numbers, taken);
}
