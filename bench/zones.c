#include "zones.h"

#include <inttypes.h>
#include <stdio.h>
#include <string.h>

#include "calls.h"
#include "fail.h"
#include "reference.h"
#include "sheets.h"
#include "timing.h"

typedef struct {
    size_t len;
    uint8_t bytes[LVS_MAX_ZONES * LVS_ZONE_SIZE];
} Zones;

static uint32_t fill_by_plain_c(const Sheet *sheet, const Zones *zones, uint32_t y, int32_t *levels) {
    return reference_zones(sheet->bytes, sheet->len, zones->bytes, zones->len, 0, y, levels, sheet->width);
}

static uint32_t fill_by_run(const Sheet *sheet, const Zones *zones, uint32_t y, int32_t *levels) {
    (void)zones;
    return lvs_fill_run(sheet->bytes, sheet->len, 0, y, levels, sheet->width);
}

static uint32_t fill_by_module(const Sheet *sheet, const Zones *zones, uint32_t y, int32_t *levels) {
    return lvs_fill_zoned_run(sheet->bytes, sheet->len, zones->bytes, zones->len, 0, y, levels, sheet->width);
}

typedef uint32_t Fill(const Sheet *sheet, const Zones *zones, uint32_t y, int32_t *levels);

typedef struct {
    const char *name;
    Fill *fill;
} Kind;

enum { ZONED = 3, ROWS = 64, BATCHES = 5 };
enum { PLAIN, RUN, MODULE, KINDS };
enum { NONE, WHOLE, STRETCHES, LISTS };

static const Kind kinds[KINDS] = {{"plain C", fill_by_plain_c}, {"plain run", fill_by_run}, {"module", fill_by_module}};
static const char *const lists[LISTS] = {"none", "16 over the whole row", "16 side by side, 33 stretches"};

/* A sheet, the lists of zones on it, and the best times. */
typedef struct {
    Sheet sheet;
    Zones zones[LISTS];
    double best[LISTS][KINDS], check;
} Zoned;

static const Mesh zoned_meshes[ZONED] = {{33, 33, 61, 33}, {65, 65, 8, 8}, {65, 65, 32, 17}};

static Zoned all_zoned[ZONED];

static void put_word(Zones *zones, uint32_t word) {
    zones->bytes[zones->len++] = word & 255;
    zones->bytes[zones->len++] = word >> 8 & 255;
}

/* A zone over all rows, with limits that some levels are beyond. */
static void add_zone(Zones *zones, uint32_t left, uint32_t right) {
    uint32_t narrowing = 10 * (uint32_t)(zones->len / LVS_ZONE_SIZE);
    put_word(zones, left);
    put_word(zones, 0);
    put_word(zones, right);
    put_word(zones, 65535);
    put_word(zones, narrowing - 1500);
    put_word(zones, 1500 - narrowing);
}

static void make_zones(Zones zones[LISTS], uint32_t width) {
    uint32_t part = width / (2 * LVS_MAX_ZONES + 1);
    for (uint32_t k = 0; k < LVS_MAX_ZONES; k++) {
        add_zone(&zones[WHOLE], 0, width - 1);
        add_zone(&zones[STRETCHES], (2 * k + 1) * part, (2 * k + 2) * part - 1);
    }
}

/* Ends the program where a row of the module is not that of plain C. */
static void compare_rows(const Sheet *sheet, const Zones *zones) {
    static int32_t want[LVS_MAX_RUN], got[LVS_MAX_RUN];
    for (uint32_t y = 0; y < sheet->height; y++) {
        memset(got, 0x80, sizeof got); /* which no level is: a place that is not written is found */
        expect("plain C", fill_by_plain_c(sheet, zones, y, want));
        expect("lvs_fill_zoned_run", fill_by_module(sheet, zones, y, got));
        if (memcmp(got, want, sheet->width * sizeof *got) != 0) fail("lvs_fill_zoned_run gives another row %" PRIu32 " than plain C", y);
    }
}

void prepare_zones(void) {
    for (Zoned *zoned = all_zoned; zoned < all_zoned + ZONED; zoned++) {
        make_sheet(&zoned->sheet, zoned_meshes[zoned - all_zoned]);
        make_zones(zoned->zones, zoned->sheet.width);
        for (int w = 0; w < LISTS; w++) compare_rows(&zoned->sheet, &zoned->zones[w]);
    }
}

/* Seconds per row, over scattered rows that take about half a millisecond. */
static double time_batch(const Kind *kind, const Sheet *sheet, const Zones *zones) {
    static int32_t levels[LVS_MAX_RUN];
    Fill *volatile fill = kind->fill; /* volatile, so that the compiler inlines none of the calls */
    double from = now();
    for (int k = 0; k < ROWS; k++) expect(kind->name, fill(sheet, zones, sheet->places[k].y, levels));
    return (now() - from) / ROWS;
}

static void measure_zoned(Zoned *zoned, int round) {
    for (int k = 0; k < KINDS * BATCHES; k++)
        for (int w = 0; w < LISTS; w++) {
            int q = (k + round) % KINDS;
            keep_best(&zoned->best[w][q], time_batch(&kinds[q], &zoned->sheet, &zoned->zones[w]));
        }
    keep_best(&zoned->check, time_check(&zoned->sheet));
}

void measure_zones(int round) {
    for (int k = 0; k < ZONED; k++) measure_zoned(&all_zoned[k], round);
}

static void print_zoned(const Zoned *zoned, int w) {
    const Sheet *sheet = &zoned->sheet;
    Mesh mesh = sheet->mesh;
    const double *best = zoned->best[w];
    printf("| %" PRIu32 "×%" PRIu32 " lines, cells %" PRIu32 "×%" PRIu32 ", %" PRIu32 " pixels | %s |", mesh.columns, mesh.rows, mesh.cell_width,
           mesh.cell_height, sheet->width, lists[w]);
    for (int q = 0; q < KINDS; q++) printf(" %.2f µs |", best[q] * 1e6);
    printf(" %.2f µs | **%.2f** | **%.2f** |\n", zoned->check * 1e6, best[RUN] / best[MODULE], best[PLAIN] / best[MODULE]);
}

void print_zones(int rounds) {
    printf("\nRows of zoned levels, time per row, the best of %d batches; every call checks the whole sheet:\n\n", rounds * BATCHES);
    printf("| sheet, row | zones |");
    for (int q = 0; q < KINDS; q++) printf(" %s |", kinds[q].name);
    printf(" check alone | module/plain run | module/plain C |\n|---|---|---:|---:|---:|---:|---:|---:|\n");
    for (int k = 0; k < ZONED; k++)
        for (int w = 0; w < LISTS; w++) print_zoned(&all_zoned[k], w);
}
