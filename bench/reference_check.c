#include <string.h>

#include "reference.h"

static uint32_t word(const uint8_t *at) { return at[0] | (uint32_t)at[1] << 8; }

static int are_lines(const uint8_t *at, uint32_t count) {
    for (uint32_t k = 1; k < count; k++)
        if (word(at + 2 * k) - word(at + 2 * k - 2) - 1 > 63) return 0; /* unsigned: a line that does not rise is far above */
    return word(at + 2 * (count - 1)) <= 4096;
}

/* By the greatest and the least of all, so that the compiler can take several at a time. */
static int are_node_numbers(const uint8_t *at, size_t count) {
    int16_t most = 0, least = 0;
    for (size_t k = 0; k < count; k++) {
        int16_t number = (int16_t)word(at + 2 * k);
        most = number > most ? number : most;
        least = number < least ? number : least;
    }
    return most <= 4095 && least >= -4095;
}

uint32_t reference_check(const uint8_t *sheet, size_t len) {
    if (len < 8 || memcmp(sheet, "LVS", 3) != 0) return 1;
    if (word(sheet + 3) != 1) return 2;
    uint32_t m = sheet[5], n = sheet[6], nodes = 8 + 2 * m + 2 * n;
    if (m < 2 || m > 65 || n < 2 || n > 65 || sheet[7] != 0) return 3;
    if (len != nodes + 6 * m * n) return 4;
    if (!are_lines(sheet + 8, m) || !are_lines(sheet + 8 + 2 * m, n)) return 5;
    return are_node_numbers(sheet + nodes, 3 * m * n) ? 0 : 6;
}
