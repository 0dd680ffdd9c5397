/* The proved functions of libprobe.a that no C entry gives: reader, facts and texts. */
#ifndef PROBE_H
#define PROBE_H
#include <stddef.h>
#include <stdint.h>

/* Rattle passes a slice as a pointer, then its length. */
uint64_t probe_read(const uint8_t *table, size_t length);
uint64_t probe_longest(const uint8_t *table, size_t length);
uint64_t probe_present(const uint8_t *table, size_t length, uint64_t v);
uint64_t probe_listens(const uint8_t *table, size_t length, uint64_t pair);
uint64_t probe_slot(const uint8_t *table, size_t length, uint64_t v, uint64_t k);
uint64_t probe_text(const uint8_t *table, size_t length, uint8_t *text, size_t text_length);
uint64_t probe_run_text(const uint8_t *table, size_t length, const uint8_t *schedule, size_t schedule_length,
                        uint8_t *text, size_t text_length);

#endif
