#include "reference.h"
#include "reference_cell.h"

/* 32 n / d to the nearest, a tie up: half of a doubled second derivative, in 1/64 grain */
static int64_t rounded(int64_t n, int64_t d) { return floor_div(64 * n + d, 2 * d); }

/* the bends uu, uv (times `sign`) and vv of piece 0 with these corners, u and v pixels into a cell W by H */
static void bend_of(Corners c, int64_t u, int64_t v, int64_t W, int64_t H, int64_t sign, int64_t *uu, int64_t *uv, int64_t *vv) {
    int64_t k[10];
    coefficients(c, k);
    *uu = rounded(2 * (k[3] * W * H + 3 * k[6] * u * H + k[7] * v * W), W * W * W * H);
    *uv = rounded(sign * (k[4] * W * H + 2 * k[7] * u * H + 2 * k[8] * v * W), W * W * H * H);
    *vv = rounded(2 * (k[5] * W * H + k[8] * u * H + 3 * k[9] * v * W), W * H * H * H);
}

/* the bends xx, xy, yy of each piece that touches the pixel a, b of a cell; gives how many do */
static uint32_t bends_of_cell(Corners c, int64_t a, int64_t b, int64_t W, int64_t H, int64_t *out) {
    int64_t v = a * H, u = b * W, t = W * H, *to = out;
    if (u <= v && u <= t - v) { bend_of(c, a, b, W, H, 1, to, to + 1, to + 2); to += 3; }
    if (v >= u && v >= t - u) { bend_of(swapped(mirrored(c)), b, W - a, H, W, -1, to + 2, to + 1, to); to += 3; }
    if (u >= v && u >= t - v) { bend_of(flipped(c), a, H - b, W, H, -1, to, to + 1, to + 2); to += 3; }
    if (v <= u && v <= t - u) { bend_of(swapped(c), b, a, H, W, 1, to + 2, to + 1, to); to += 3; }
    return (uint32_t)(to - out) / 3;
}

static int outside(const uint8_t *lines, uint32_t count, uint32_t p) { return p < u16(lines) || p > u16(lines + 2 * (count - 1)); }

/* the lowest cell along one axis that touches a pixel, where the highest is known */
static uint32_t lowest(const uint8_t *lines, uint32_t highest, uint32_t p) { return highest - (highest > 0 && u16(lines + 2 * highest) == p); }

uint32_t reference_bends(const uint8_t *s, size_t len, uint32_t x, uint32_t y, int64_t *bends, size_t places, uint32_t *pieces) {
    uint32_t refusal = reference_check(s, len), count = 0;
    if (refusal) return refusal;
    const uint8_t *xs = s + 8, *ys = xs + 2 * s[5];
    if (outside(xs, s[5], x) || outside(ys, s[6], y)) return 7;
    if (places < 24) return 14;
    uint32_t last_i = cell_of(xs, s[5], x), last_j = cell_of(ys, s[6], y);
    for (uint32_t j = lowest(ys, last_j, y); j <= last_j; j++)
        for (uint32_t i = lowest(xs, last_i, x); i <= last_i; i++) {
            int64_t left = u16(xs + 2 * i), top = u16(ys + 2 * j), W = u16(xs + 2 * i + 2) - left, H = u16(ys + 2 * j + 2) - top;
            count += bends_of_cell(corners_of(s, i, j, W, H), x - left, y - top, W, H, bends + 3 * count);
        }
    *pieces = count;
    return 0;
}
