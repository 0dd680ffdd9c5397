/* Faults planted into the proved check. It is linked with ld's --wrap, so that every call goes through here. */
#include "planting.h"
#include "probe.h"
#include "reefsplice.h"
#include <string.h>

enum { SETTLED_IN_TEXT = 22, COUNTS = 5 };

__typeof__(reefsplice_check) __real_reefsplice_check, __wrap_reefsplice_check;
__typeof__(probe_text) __real_probe_text, __wrap_probe_text;

static void plant_counts(uint8_t *numbers)
{
    static const char *faults[COUNTS] = {"longer-ring", "invented-settled", "invented-stuck", "invented-stages",
                                         "invented-longest"};
    for (size_t at = 0; at < COUNTS; at++)
        add_word(numbers, at, is_planted(faults[at]));
}

static void plant_accepted(uint8_t *rows, uint8_t *ring, uint8_t *numbers, int turned)
{
    plant("rows-byte", rows, 1023);
    plant("ring-byte", ring, 0);
    plant("ring-end", ring, 2);
    plant_counts(numbers);
    plant_numbers(numbers, COUNTS);
    if (turned) {
        plant("what-was-there", rows, 40);
        plant("which-numbers-were-there", numbers, 0);
    }
}

static void plant_cleared(const char *fault, uint8_t *bytes, size_t length)
{
    if (is_planted(fault))
        memset(bytes, 0, length);
}

uint64_t __wrap_reefsplice_check(const uint8_t *table, size_t table_len, uint8_t *rows, size_t rows_len, uint8_t *ring,
                                 size_t ring_len, uint8_t *numbers, size_t numbers_len)
{
    int turned = is_turned(rows, rows_len);
    uint64_t code = __real_reefsplice_check(table, table_len, rows, rows_len, ring, ring_len, numbers, numbers_len);
    if (code == 0) {
        plant_accepted(rows, ring, numbers, turned);
    } else {
        plant_cleared("clears-rows", rows, rows_len);
        plant_cleared("clears-ring", ring, ring_len);
        plant_cleared("clears-numbers", numbers, numbers_len);
    }
    plant_around("rows", rows, rows_len);
    plant_around("ring", ring, ring_len);
    plant_around("numbers", numbers, numbers_len);
    return plant_code(code);
}

uint64_t __wrap_probe_text(const uint8_t *table, size_t length, uint8_t *text, size_t text_length)
{
    uint64_t written = __real_probe_text(table, length, text, text_length);
    plant_input("table-byte", table, length);
    plant("text-count", text, SETTLED_IN_TEXT);
    return plant_text(written, text, text_length);
}
