#include "calls.h"

#include <inttypes.h>
#include <stdio.h>
#include <string.h>

#include "fail.h"
#include "reference.h"
#include "timing.h"

static double make_check(Sheet *sheet, const Place *at) {
    expect("lvs_check", lvs_check(sheet->bytes, sheet->len));
    return at->x;
}

static double make_level(Sheet *sheet, const Place *at) {
    double v[3];
    expect("lvs_read", lvs_read(sheet->bytes, sheet->len, at->x, at->y, LVS_LEVEL, v));
    return v[0];
}

static double make_tilt(Sheet *sheet, const Place *at) {
    double v[3];
    expect("lvs_read", lvs_read(sheet->bytes, sheet->len, at->x, at->y, LVS_TILT, v));
    return v[0] + v[1];
}

static double make_bend(Sheet *sheet, const Place *at) {
    double v[3];
    expect("lvs_read", lvs_read(sheet->bytes, sheet->len, at->x, at->y, LVS_BEND, v));
    return v[0] + v[1] + v[2];
}

/* Sixteen zones over the whole screen. */
static uint8_t whole_screen[LVS_MAX_ZONES * LVS_ZONE_SIZE];

static double make_zoned_level(Sheet *sheet, const Place *at) {
    int32_t level;
    expect("lvs_zoned_level", lvs_zoned_level(sheet->bytes, sheet->len, whole_screen, sizeof whole_screen, at->x, at->y, &level));
    return level;
}

static double make_node_refusal(Sheet *sheet, const Place *at) {
    expect("lvs_node_refusal", lvs_node_refusal(sheet->bytes, sheet->len, at->column, at->row));
    return at->x;
}

static double make_node_offset(Sheet *sheet, const Place *at) {
    size_t offset = lvs_node_offset(sheet->bytes, sheet->len, at->column, at->row);
    if (offset == 0) fail("lvs_node_offset found no node");
    return (double)offset;
}

static double make_set_node(Sheet *sheet, const Place *at) {
    expect("lvs_set_node", lvs_set_node(sheet->bytes, sheet->len, at->column, at->row, at->height, at->x_slope, at->y_slope));
    return at->x;
}

typedef struct {
    const char *name;
    double (*make)(Sheet *sheet, const Place *at);
} Call;

enum { SINGLES = 3, BATCHES = 10 };
enum { CHECK, CALLS = 8 };

static const Call calls[CALLS] = {
    {"`lvs_check`", make_check},
    {"`lvs_read`, level", make_level},
    {"`lvs_read`, tilt", make_tilt},
    {"`lvs_read`, bend", make_bend},
    {"`lvs_zoned_level`, 16 zones", make_zoned_level},
    {"`lvs_node_refusal`", make_node_refusal},
    {"`lvs_node_offset`", make_node_offset},
    {"`lvs_set_node`", make_set_node},
};

/* A sheet and the best time of each call on it. */
typedef struct {
    Sheet sheet;
    double best[CALLS];
} Single;

static const Mesh single_meshes[SINGLES] = {{2, 2, 64, 64}, {33, 33, 61, 33}, {65, 65, 32, 17}};

static Single singles[SINGLES];

/* What the calls gave goes here, so that the compiler leaves none out. */
static volatile double sink;

/* Seconds per call, over a batch that takes about a millisecond. */
static double time_batch(const Call *call, Sheet *sheet) {
    size_t count = 4000000 / (sheet->len + 300);
    double (*volatile make)(Sheet *sheet, const Place *at) = call->make; /* volatile, so that the compiler inlines none of the calls */
    double sum = 0, from = now();
    for (size_t k = 0; k < count; k++) sum += make(sheet, &sheet->places[k % PLACES]);
    double took = now() - from;
    sink = sink + sum;
    return took / (double)count;
}

double time_check(Sheet *sheet) { return time_batch(&calls[CHECK], sheet); }

/* Ends the program where a reading is not the level that the baseline has there. */
static void compare_readings(Sheet *sheet) {
    for (int k = 0; k < PLACES; k++) {
        const Place *at = &sheet->places[k];
        int32_t want;
        reference_pixels(sheet->bytes, at->x, at->y, &want, 1);
        double got = 64 * make_level(sheet, at);
        if (got != want) fail("lvs_read gives %g grains at (%" PRIu32 ", %" PRIu32 "), pixels %" PRId32, got, at->x, at->y, want);
    }
}

void prepare_singles(void) {
    static const uint8_t zone[LVS_ZONE_SIZE] = {0, 0, 0, 0, 0xFF, 0xFF, 0xFF, 0xFF, 0x01, 0xF0, 0xFF, 0x0F};
    for (size_t k = 0; k < sizeof whole_screen; k += sizeof zone) memcpy(whole_screen + k, zone, sizeof zone);
    for (Single *single = singles; single < singles + SINGLES; single++) {
        make_sheet(&single->sheet, single_meshes[single - singles]);
        compare_readings(&single->sheet);
    }
}

static void measure_single(Single *single) {
    for (int k = 0; k < BATCHES; k++)
        for (int c = 0; c < CALLS; c++) keep_best(&single->best[c], time_batch(&calls[c], &single->sheet));
}

void measure_singles(void) {
    for (int k = 0; k < SINGLES; k++) measure_single(&singles[k]);
}

static void print_time(double seconds) {
    if (seconds < 999.5e-9) printf(" %.0f ns |", seconds * 1e9);
    else printf(" %.2f µs |", seconds * 1e6);
}

void print_singles(int rounds) {
    printf("\nTime per call, at %d scattered pixels and nodes, the best of %d batches; *own* is without `lvs_check` on the same sheet:\n\n", PLACES,
           rounds * BATCHES);
    printf("| call |");
    for (int k = 0; k < SINGLES; k++)
        printf(" %" PRIu32 "×%" PRIu32 " lines, %zu bytes | own |", single_meshes[k].columns, single_meshes[k].rows, singles[k].sheet.len);
    printf("\n|---|");
    for (int k = 0; k < SINGLES; k++) printf("---:|---:|");
    printf("\n");
    for (int c = 0; c < CALLS; c++) {
        printf("| %s |", calls[c].name);
        for (int k = 0; k < SINGLES; k++) {
            print_time(singles[k].best[c]);
            if (c == CHECK) printf(" |");
            else print_time(singles[k].best[c] - singles[k].best[CHECK]);
        }
        printf("\n");
    }
}
