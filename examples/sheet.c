/* What a server does with a sheet, by each of the eleven calls: checks it, reads at a pixel, lists the bends from each piece there, fills the row from there
 * on, with a floor of light for subtitles too, finds a node, sets it, reads it back, fills all slopes from the heights and reads once more. Then it takes the
 * sheet as the screen's, pools it with those of lens and port glass, and reads what the lamp sees.
 * Usage: sheet FILE [X Y]; without a pixel, at the mesh's first. */
#include <inttypes.h>
#include <stdio.h>
#include <stdlib.h>
#include <string.h>

#include "light_sheet.h"

static const char *const meaning[] = {
    "done", "mark", "version", "counts", "length", "lines", "nodes", "outside the mesh", "empty run", "reading kind", "no such node", "new numbers",
    "stiffness", "too steep", "few places", "second sheet", "other lines", "target's length", "list of zones", "zone",
};

/* Ends the program where a call is refused. */
static void expect(const char *call, uint32_t number) {
    if (number != LVS_DONE) {
        printf("%s refused %" PRIu32 ": %s\n", call, number, meaning[number]);
        exit(1);
    }
}

static uint32_t word(const uint8_t *at) { return at[0] | (uint32_t)at[1] << 8; }

static int32_t signed_word(const uint8_t *at) { return (int32_t)(word(at) ^ 0x8000) - 0x8000; }

/* Level, tilt and bend at a pixel. */
static void print_readings(const uint8_t *sheet, size_t len, uint32_t x, uint32_t y) {
    double v[3];
    expect("level", lvs_read(sheet, len, x, y, LVS_LEVEL, v));
    printf("level at %" PRIu32 ",%" PRIu32 ": %.17g steps\n", x, y, v[0]);
    expect("tilt", lvs_read(sheet, len, x, y, LVS_TILT, v));
    printf("tilt: %.17g %.17g steps per pixel\n", v[0], v[1]);
    expect("bend", lvs_read(sheet, len, x, y, LVS_BEND, v));
    printf("bend: %.17g %.17g %.17g steps per pixel per pixel\n", v[0], v[1], v[2]);
}

/* The bend from each piece that touches a pixel, as whole numbers: on a line or a diagonal there are several, and they may differ. */
static void print_bends(const uint8_t *sheet, size_t len, uint32_t x, uint32_t y) {
    int64_t bends[LVS_BEND_PLACES];
    uint32_t pieces;
    expect("bends", lvs_bends(sheet, len, x, y, bends, LVS_BEND_PLACES, &pieces));
    printf("bends by piece, in 1/64 grain per pixel per pixel:");
    for (uint32_t k = 0; k < pieces; k++)
        printf("%s %" PRId64 " %" PRId64 " %" PRId64, k > 0 ? "," : "", bends[3 * k], bends[3 * k + 1], bends[3 * k + 2]);
    printf("\n");
}

/* The pixels from this one to the right edge of the mesh; the sheet is accepted, the pixel of the mesh. */
static size_t row_length(const uint8_t *sheet, uint32_t x) { return word(sheet + 8 + 2 * (sheet[5] - 1)) - x + 1; }

static void print_levels(const char *what, const int32_t *levels, size_t count) {
    printf("%s along the row, in grains:", what);
    for (size_t k = 0; k < count; k++) printf(" %" PRId32, levels[k]);
    printf("\n");
}

static void print_row(const uint8_t *sheet, size_t len, uint32_t x, uint32_t y) {
    static int32_t levels[LVS_MAX_RUN];
    size_t count = row_length(sheet, x);
    expect("run", lvs_fill_run(sheet, len, x, y, levels, count));
    print_levels("levels", levels, count);
}

/* A zone over the lower part of the picture, from the row in the middle of the mesh down: a floor of one step for subtitles, and the highest ceiling. */
static uint32_t write_subtitles(uint8_t zone[LVS_ZONE_SIZE], const uint8_t *sheet) {
    const uint8_t *rows = sheet + 8 + 2 * sheet[5];
    uint32_t top = (word(rows) + word(rows + 2 * (sheet[6] - 1))) / 2;
    const uint32_t numbers[] = {0, top, 65535, 65535, 1, 4095};
    for (int k = 0; k < 6; k++) {
        zone[2 * k] = (uint8_t)numbers[k];
        zone[2 * k + 1] = (uint8_t)(numbers[k] >> 8);
    }
    return top;
}

static void print_with_subtitles(const uint8_t *sheet, size_t len, uint32_t x, uint32_t y) {
    static int32_t levels[LVS_MAX_RUN];
    uint8_t zones[LVS_ZONE_SIZE]; /* a list of one */
    uint32_t top = write_subtitles(zones, sheet);
    int32_t level;
    size_t count = row_length(sheet, x);
    expect("zoned level", lvs_zoned_level(sheet, len, zones, sizeof zones, x, y, &level));
    printf("with subtitles from row %" PRIu32 " down, zoned level: %" PRId32 " grains\n", top, level);
    expect("zoned run", lvs_fill_zoned_run(sheet, len, zones, sizeof zones, x, y, levels, count));
    print_levels("zoned levels", levels, count);
}

static void print_first_node(const uint8_t *node) {
    printf("first node: height %" PRId32 ", slopes %" PRId32 " %" PRId32 "\n", signed_word(node), signed_word(node + 2), signed_word(node + 4));
}

/* The first node one step brighter. */
static void brighten_first_node(uint8_t *sheet, size_t len) {
    expect("lookup", lvs_node_refusal(sheet, len, 0, 0));
    const uint8_t *node = sheet + lvs_node_offset(sheet, len, 0, 0);
    print_first_node(node);
    expect("setting", lvs_set_node(sheet, len, 0, 0, signed_word(node) + 1, signed_word(node + 2), signed_word(node + 4)));
    printf("set to height %" PRId32 "\n", signed_word(node));
}

/* Every slope anew, from the heights alone. Stiffness 64 gives the slope of the straight line between a node's neighbours. */
static void fill_slopes(uint8_t *sheet, size_t len) {
    expect("filling", lvs_fill_slopes(sheet, len, 64));
    const uint8_t *node = sheet + lvs_node_offset(sheet, len, 0, 0);
    printf("slopes filled, at the first node: %" PRId32 " %" PRId32 " grains per pixel\n", signed_word(node + 2), signed_word(node + 4));
}

/* A sheet on the screen's lines, flat but for its first node: it stands here for what a house has measured of its lens, or of its port glass. */
static void write_first_node(uint8_t *sheet, const uint8_t *screen, size_t len, int32_t height, int32_t x_slope, int32_t y_slope) {
    size_t nodes = lvs_node_offset(screen, len, 0, 0);
    memcpy(sheet, screen, nodes);
    memset(sheet + nodes, 0, len - nodes);
    expect("setting", lvs_set_node(sheet, len, 0, 0, height, x_slope, y_slope));
}

/* The lamp sees the sum of screen, lens and port glass. A pool can be pooled again, so two calls make one sheet of three. */
static void pool_three(const uint8_t *screen, size_t len, uint8_t *all) {
    static uint8_t lens[LVS_MAX_SHEET], glass[LVS_MAX_SHEET], both[LVS_MAX_SHEET];
    write_first_node(lens, screen, len, -1, 16, 0);
    write_first_node(glass, screen, len, 3, 0, 16);
    expect("pool of lens and glass", lvs_pool(lens, len, glass, len, both, len));
    expect("pool of all three", lvs_pool(screen, len, both, len, all, len));
    printf("screen, lens and port glass pooled, ");
    print_first_node(all + lvs_node_offset(all, len, 0, 0));
}

int main(int argc, char **argv) {
    static uint8_t sheet[LVS_MAX_SHEET + 1]; /* one byte more than any sheet has, so that a longer file is refused */
    static uint8_t all[LVS_MAX_SHEET];
    FILE *file = argc == 2 || argc == 4 ? fopen(argv[1], "rb") : NULL;
    if (!file) {
        fprintf(stderr, "usage: sheet FILE [X Y], where FILE can be read\n");
        return 2;
    }
    size_t len = fread(sheet, 1, sizeof sheet, file);
    fclose(file);
    expect("sheet", lvs_check(sheet, len));
    uint32_t first_x = word(sheet + 8), first_y = word(sheet + 8 + 2 * sheet[5]);
    uint32_t x = argc == 4 ? (uint32_t)strtoul(argv[2], NULL, 10) : first_x, y = argc == 4 ? (uint32_t)strtoul(argv[3], NULL, 10) : first_y;
    print_readings(sheet, len, x, y);
    print_bends(sheet, len, x, y);
    print_row(sheet, len, x, y);
    print_with_subtitles(sheet, len, x, y);
    brighten_first_node(sheet, len);
    print_readings(sheet, len, first_x, first_y);
    fill_slopes(sheet, len);
    print_readings(sheet, len, first_x, first_y);
    pool_three(sheet, len, all);
    print_readings(all, len, first_x, first_y);
    return 0;
}
