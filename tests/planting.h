/* Faults planted into the proved code, to see that the comparison finds each; the variable PLANT names the fault. */
#ifndef PLANTING_H
#define PLANTING_H
#include <stddef.h>
#include <stdint.h>

int is_planted(const char *fault);

/* Changes the byte at `at` if the fault is the planted one. */
void plant(const char *fault, uint8_t *bytes, ptrdiff_t at);

/* Writes to what is lent for reading alone. */
void plant_input(const char *fault, const uint8_t *input, size_t length);

/* The faults beside a lent buffer: NAME-before and NAME-after. */
void plant_around(const char *name, uint8_t *bytes, size_t length);

/* The faults of every call: aborts, stays, and a wrong number or place. Gives the code to answer with. */
uint64_t plant_code(uint64_t code);

/* The faults of a text that was laid so far. Gives the count to answer with. */
uint64_t plant_text(uint64_t written, uint8_t *text, size_t text_length);

/* Whether a buffer holds the driver's marks as they are in the call in which they are turned. */
int is_turned(const void *marked, size_t length);

/* Word `at` of a buffer of numbers or sums: four bytes, low byte first. */
int32_t word_at(const uint8_t *bytes, size_t at);
void put_word(uint8_t *bytes, size_t at, int32_t word);
void add_word(uint8_t *bytes, size_t at, int32_t more);

/* The faults of such words: NAME-turned, high byte first, and NAME-one-byte, which only shows in negative ones. */
void plant_words(const char *name, uint8_t *bytes, size_t count);

/* The faults of an accepted call's buffer of numbers, of which an answer takes the first few. */
void plant_numbers(uint8_t *numbers, size_t taken);

#endif
