/* The header's helpers on values written out by hand. */
#include "reefsplice.h"
#include <stdio.h>
#include <string.h>

static int failed;

static void hold(int is_right, const char *what)
{
    if (!is_right) {
        printf("FAILED %s\n", what);
        failed++;
    }
}

#define HOLD(test) hold(test, #test)

static void hold_words(void)
{
    static const uint8_t words[7 * 4] = "\0\0\0\0" "\4\3\2\1" "\xff\xff\xff\x7f" "\0\0\0\x80" "\1\0\0\x80"
                                        "\xf0\xff\xff\xff" "\xff\xff\xff\xff";
    static const uint32_t plain[] = {0, 0x01020304, 0x7fffffff, 0x80000000, 0x80000001, 0xfffffff0, 0xffffffff};
    static const int32_t with_sign[] = {0, 0x01020304, INT32_MAX, INT32_MIN, -INT32_MAX, -16, -1};
    for (size_t i = 0; i < sizeof words / 4; i++) {
        HOLD(reefsplice_word(words, i) == plain[i]);
        HOLD(reefsplice_signed_word(words, i) == with_sign[i]);
    }
}

static void hold_codes(void)
{
    uint64_t second = (uint64_t)7 << 32;
    HOLD(reefsplice_number(0) == 0 && reefsplice_place(0) == 0);
    HOLD(reefsplice_number(521) == 9 && reefsplice_place(521) == 2);
    HOLD(reefsplice_number(1048332) == REEFSPLICE_REFUSED_HEARD && reefsplice_place(1048332) == 4095);
    HOLD(reefsplice_number(second + 521) == 9 && reefsplice_place(second + 521) == 2);
    HOLD(reefsplice_place(0xffffff00) == 0xffffff);
}

static void hold_sentences(void)
{
    HOLD(strcmp(reefsplice_words(REEFSPLICE_REFUSED_PAIR), "pair is not a listening pair") == 0);
    HOLD(strcmp(reefsplice_words(15), "no refusal of this library") == 0);
    HOLD(strcmp(reefsplice_words(255), "no refusal of this library") == 0);
}

int main(void)
{
    hold_words();
    hold_codes();
    hold_sentences();
    printf("%d failed\n", failed);
    return failed == 0 ? 0 : 1;
}
