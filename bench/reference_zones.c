#include "reference.h"

static uint32_t word(const uint8_t *at) { return at[0] | (uint32_t)at[1] << 8; }
static int32_t signed_word(const uint8_t *at) { return (int16_t)word(at); }

static int outside(const uint8_t *lines, uint32_t count, uint32_t p) { return p < word(lines) || p > word(lines + 2 * (count - 1)); }

static int is_limit(int32_t limit) { return limit >= -4095 && limit <= 4095; }

static uint32_t check_zones(const uint8_t *zones, size_t len) {
    if (len % 12 != 0 || len > 192) return 18;
    for (const uint8_t *zone = zones; zone < zones + len; zone += 12) {
        int32_t floor = signed_word(zone + 8), ceiling = signed_word(zone + 10);
        if (word(zone) > word(zone + 4) || word(zone + 2) > word(zone + 6) || floor > ceiling || !is_limit(floor) || !is_limit(ceiling)) return 19;
    }
    return 0;
}

/* No branches, so that the compiler can take several at a time. */
static void limit_levels(int32_t *levels, size_t count, int32_t floor, int32_t ceiling) {
    for (size_t k = 0; k < count; k++) {
        int32_t level = levels[k] < floor ? floor : levels[k];
        levels[k] = level > ceiling ? ceiling : level;
    }
}

/* What a zone does to a row from x to last. */
static void apply_zone(const uint8_t *zone, uint32_t x, uint32_t last, uint32_t y, int32_t *levels) {
    if (y < word(zone + 2) || y > word(zone + 6)) return;
    uint32_t from = word(zone) > x ? word(zone) : x, to = word(zone + 4) < last ? word(zone + 4) : last;
    if (from <= to) limit_levels(levels + (from - x), to - from + 1, 64 * signed_word(zone + 8), 64 * signed_word(zone + 10));
}

uint32_t reference_zones(const uint8_t *sheet, size_t len, const uint8_t *zones, size_t zones_len, uint32_t x, uint32_t y, int32_t *levels, size_t count) {
    uint32_t refusal = reference_check(sheet, len);
    if (refusal != 0) return refusal;
    const uint8_t *xs = sheet + 8, *ys = xs + 2 * sheet[5];
    if (outside(xs, sheet[5], x) || outside(ys, sheet[6], y) || count > word(xs + 2 * (sheet[5] - 1)) - x + 1) return 7;
    if (count == 0) return 8;
    refusal = check_zones(zones, zones_len);
    if (refusal != 0) return refusal;
    reference_spans(sheet, x, y, levels, count);
    for (const uint8_t *zone = zones; zone < zones + zones_len; zone += 12) apply_zone(zone, x, x + (uint32_t)count - 1, y, levels);
    return 0;
}
