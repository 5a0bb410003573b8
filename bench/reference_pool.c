#include <string.h>

#include "reference.h"

/* A number as it stands in a sheet: the low byte first, as on the machines that the module is for. */
static int16_t number(const uint8_t *at) {
    int16_t number;
    memcpy(&number, at, sizeof number);
    return number;
}

/* Of two numbers in range, so that 16 bits hold it. */
static int16_t sum_at(const uint8_t *first, const uint8_t *second, size_t k) { return (int16_t)(number(first + 2 * k) + number(second + 2 * k)); }

/* By the greatest and the least of all, so that the compiler can take several at a time. */
static int are_sums(const uint8_t *first, const uint8_t *second, size_t count) {
    int16_t most = 0, least = 0;
    for (size_t k = 0; k < count; k++) {
        int16_t sum = sum_at(first, second, k);
        most = sum > most ? sum : most;
        least = sum < least ? sum : least;
    }
    return most <= 4095 && least >= -4095;
}

static void write_sums(const uint8_t *restrict first, const uint8_t *restrict second, uint8_t *restrict target, size_t count) {
    for (size_t k = 0; k < count; k++) {
        int16_t sum = sum_at(first, second, k);
        memcpy(target + 2 * k, &sum, sizeof sum);
    }
}

uint32_t reference_pool(const uint8_t *first, size_t first_len, const uint8_t *second, size_t second_len, uint8_t *target, size_t target_len) {
    uint32_t refusal = reference_check(first, first_len);
    if (refusal != 0) return refusal;
    if (reference_check(second, second_len) != 0) return 15;
    size_t nodes = 8 + 2 * first[5] + 2 * first[6], count = (first_len - nodes) / 2;
    if (first_len != second_len || memcmp(first, second, nodes) != 0) return 16; /* the counts, then the lines; the rest of a header is always the same */
    if (target_len != first_len) return 17;
    if (!are_sums(first + nodes, second + nodes, count)) return 11;
    memcpy(target, first, nodes);
    write_sums(first + nodes, second + nodes, target + nodes, count);
    return 0;
}
