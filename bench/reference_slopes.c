#include "reference.h"

static int32_t word(const uint8_t *at) { return at[0] | at[1] << 8; }
static int32_t height(const uint8_t *node) { return (int16_t)word(node); }

static void put(uint8_t *at, int32_t number) {
    at[0] = (uint8_t)number;
    at[1] = (uint8_t)(number >> 8);
}

/* The slope of node k along one axis: `lines` are the axis's, `step` the bytes from one node to the next along it. */
static int32_t slope(const uint8_t *lines, int count, int k, const uint8_t *node, ptrdiff_t step, int32_t stiffness) {
    int before = k > 0, after = k < count - 1; /* an end node has itself on one side */
    int32_t rise = height(node + after * step) - height(node - before * step);
    int32_t distance = word(lines + 2 * (k + after)) - word(lines + 2 * (k - before));
    int32_t numerator = 2 * stiffness * rise + distance, rounded = numerator / (2 * distance);
    return rounded - (numerator % (2 * distance) < 0);
}

static int out(int32_t number) { return number < -4095 || number > 4095; }

uint32_t reference_slopes(uint8_t *sheet, uint32_t stiffness) {
    int m = sheet[5], n = sheet[6];
    const uint8_t *x_lines = sheet + 8, *y_lines = x_lines + 2 * m;
    uint8_t *nodes = sheet + 8 + 2 * m + 2 * n;
    int32_t t = (int32_t)stiffness;
    for (int j = 0; j < n; j++)
        for (int i = 0; i < m; i++) {
            const uint8_t *node = nodes + 6 * (j * m + i);
            if (out(slope(x_lines, m, i, node, 6, t)) || out(slope(y_lines, n, j, node, 6 * m, t))) return 13;
        }
    for (int j = 0; j < n; j++)
        for (int i = 0; i < m; i++) {
            uint8_t *node = nodes + 6 * (j * m + i);
            put(node + 2, slope(x_lines, m, i, node, 6, t));
            put(node + 4, slope(y_lines, n, j, node, 6 * m, t));
        }
    return 0;
}
