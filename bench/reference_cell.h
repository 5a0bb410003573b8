/* One cell of the baseline: which it is, its corner numbers, their turnings, the doubled coefficients of a piece. Static: each file has its own. */
#include <stdint.h>

/* doubled weights of piece 0: rows are the corner numbers, columns 1 r s r2 rs s2 r3 r2s rs2 s3 */
static const int64_t weights[12][10] = {
    {2, 0, 0, -6, 0, -6, 4, 0, 6, 2}, {0, 2, 0, -4, 0, -1, 2, 0, 1, 0}, {0, 0, 2, 0, -2, -3, 0, 0, 2, 1},
    {0, 0, 0, 6, 0, 0, -4, 0, -6, 2}, {0, 0, 0, -2, 0, 0, 2, 0, 1, 0},  {0, 0, 0, 0, 2, -1, 0, 0, -2, 1},
    {0, 0, 0, 0, 0, 6, 0, 0, -6, -2}, {0, 0, 0, 0, 0, 1, 0, 0, -1, 0},  {0, 0, 0, 0, 0, -2, 0, 0, 2, 1},
    {0, 0, 0, 0, 0, 0, 0, 0, 6, -2},  {0, 0, 0, 0, 0, 0, 0, 0, -1, 0},  {0, 0, 0, 0, 0, 0, 0, 0, -2, 1}};

typedef struct { int64_t v[4][3]; } Corners; /* 00, 10, 01, 11: height, W times x-slope, H times y-slope */

static uint32_t u16(const uint8_t *p) { return p[0] | p[1] << 8; }
static int64_t i16(const uint8_t *p) { return (int16_t)u16(p); }
static int64_t floor_div(int64_t n, int64_t d) { int64_t q = n / d; return q - (n % d < 0); }

/* the cell of a pixel along one axis: right or below on an inner line, the last one at the end */
static uint32_t cell_of(const uint8_t *lines, uint32_t count, uint32_t p) {
    uint32_t i = 0;
    while (i + 2 < count && u16(lines + 2 * (i + 1)) <= p) i++;
    return i;
}
static Corners corners_of(const uint8_t *s, uint32_t i, uint32_t j, int64_t W, int64_t H) {
    uint32_t m = s[5], n = s[6];
    const uint8_t *nodes = s + 8 + 2 * m + 2 * n;
    Corners c;
    for (int k = 0; k < 4; k++) {
        const uint8_t *p = nodes + 6 * ((j + k / 2) * m + i + k % 2);
        c.v[k][0] = 64 * i16(p); c.v[k][1] = W * i16(p + 2); c.v[k][2] = H * i16(p + 4);
    }
    return c;
}
static Corners permuted(Corners c, int a, int b, int d, int e, int x, int y, int sx, int sy) {
    int from[4] = {a, b, d, e};
    Corners o;
    for (int k = 0; k < 4; k++) { o.v[k][0] = c.v[from[k]][0]; o.v[k][1] = sx * c.v[from[k]][x]; o.v[k][2] = sy * c.v[from[k]][y]; }
    return o;
}
static Corners swapped(Corners c) { return permuted(c, 0, 2, 1, 3, 2, 1, 1, 1); }
static Corners flipped(Corners c) { return permuted(c, 2, 3, 0, 1, 1, 2, 1, -1); }
static Corners mirrored(Corners c) { return permuted(c, 1, 0, 3, 2, 1, 2, -1, 1); }

static void coefficients(Corners c, int64_t k[10]) {
    for (int p = 0; p < 10; p++) { k[p] = 0; for (int i = 0; i < 12; i++) k[p] += weights[i][p] * c.v[i / 3][i % 3]; }
}
