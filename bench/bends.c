#include "bends.h"

#include <inttypes.h>
#include <stdio.h>
#include <string.h>

#include "calls.h"
#include "fail.h"
#include "reference.h"
#include "sheets.h"
#include "timing.h"

typedef struct {
    uint32_t x, y;
} Pixel;

/* What a call gives at a pixel. */
typedef struct {
    uint32_t pieces;
    int64_t bends[LVS_BEND_PLACES];
} List;

static void give_by_plain_c(const Sheet *sheet, Pixel at, List *list) {
    expect("plain C", reference_bends(sheet->bytes, sheet->len, at.x, at.y, list->bends, LVS_BEND_PLACES, &list->pieces));
}

static void give_by_module(const Sheet *sheet, Pixel at, List *list) {
    expect("lvs_bends", lvs_bends(sheet->bytes, sheet->len, at.x, at.y, list->bends, LVS_BEND_PLACES, &list->pieces));
}

/* One bend alone; it counts as a list of one. */
static void give_by_reading(const Sheet *sheet, Pixel at, List *list) {
    double v[3];
    expect("lvs_read", lvs_read(sheet->bytes, sheet->len, at.x, at.y, LVS_BEND, v));
    list->pieces = 1;
    for (int k = 0; k < 3; k++) list->bends[k] = (int64_t)(4096 * v[k]);
}

typedef struct {
    const char *name;
    void (*give)(const Sheet *sheet, Pixel at, List *list);
} Kind;

enum { SHEETS = 2, BATCHES = 10 };
enum { PLAIN, MODULE, READING, KINDS };
enum { NODES, INSIDE, WHERES };

static const Kind kinds[KINDS] = {{"plain C", give_by_plain_c}, {"module", give_by_module}, {"`lvs_read`, bend", give_by_reading}};
static const char *const wheres[WHERES] = {"inner nodes", "inside pieces"};
static const uint32_t touching[WHERES] = {8, 1};

/* A sheet, pixels of each sort on it, and the best times. */
typedef struct {
    Sheet sheet;
    Pixel pixels[WHERES][PLACES];
    double best[WHERES][KINDS], check;
} Bent;

static const Mesh bent_meshes[SHEETS] = {{3, 3, 64, 64}, {65, 65, 32, 17}}; /* the smallest with an inner node, the longest */

static Bent all_bent[SHEETS];

/* What the calls gave goes here, so that the compiler leaves none out. */
static volatile int64_t sink;

static Pixel inner_node(const Sheet *sheet, const Place *at) {
    Mesh mesh = sheet->mesh;
    return (Pixel){(1 + at->column % (mesh.columns - 2)) * mesh.cell_width, (1 + at->row % (mesh.rows - 2)) * mesh.cell_height};
}

/* The scattered pixel, or one further on, that one piece alone touches. */
static Pixel inside_piece(const Sheet *sheet, const Place *at) {
    Pixel pixel = {at->x, at->y};
    List list;
    for (;;) {
        give_by_plain_c(sheet, pixel, &list);
        if (list.pieces == 1) return pixel;
        pixel = (Pixel){(pixel.x + 3) % sheet->width, (pixel.y + 1) % sheet->height};
    }
}

/* Ends the program where the module's list is not that of plain C, or its length not the one meant, or the bend read not the one in it. */
static void compare_lists(const Sheet *sheet, Pixel at, uint32_t pieces) {
    List want = {0}, got = {0}, read = {0};
    give_by_plain_c(sheet, at, &want);
    give_by_module(sheet, at, &got);
    give_by_reading(sheet, at, &read);
    if (memcmp(&got, &want, sizeof got) != 0 || got.pieces != pieces)
        fail("lvs_bends gives another list at (%" PRIu32 ", %" PRIu32 ") than plain C", at.x, at.y);
    /* an inner node is read from the last cell and the first of its two pieces */
    if (memcmp(read.bends, want.bends + (pieces == 8 ? 18 : 0), 3 * sizeof *read.bends) != 0)
        fail("lvs_read gives another bend at (%" PRIu32 ", %" PRIu32 ") than plain C", at.x, at.y);
}

void prepare_bends(void) {
    for (Bent *bent = all_bent; bent < all_bent + SHEETS; bent++) {
        Sheet *sheet = &bent->sheet;
        make_sheet(sheet, bent_meshes[bent - all_bent]);
        for (int k = 0; k < PLACES; k++) {
            bent->pixels[NODES][k] = inner_node(sheet, &sheet->places[k]);
            bent->pixels[INSIDE][k] = inside_piece(sheet, &sheet->places[k]);
            for (int w = 0; w < WHERES; w++) compare_lists(sheet, bent->pixels[w][k], touching[w]);
        }
    }
}

/* Seconds per call, over a batch that takes about a millisecond at most. */
static double time_batch(const Kind *kind, const Sheet *sheet, const Pixel pixels[PLACES]) {
    size_t count = 4000000 / (sheet->len + 1000);
    void (*volatile give)(const Sheet *sheet, Pixel at, List *list) = kind->give; /* volatile, so that the compiler inlines none of the calls */
    int64_t sum = 0;
    double from = now();
    for (size_t k = 0; k < count; k++) {
        List list;
        give(sheet, pixels[k % PLACES], &list);
        sum += list.pieces + list.bends[0];
    }
    double took = now() - from;
    sink = sink + sum;
    return took / (double)count;
}

static void measure_bent(Bent *bent, int round) {
    for (int k = 0; k < KINDS * BATCHES; k++)
        for (int w = 0; w < WHERES; w++) {
            int q = (k + round) % KINDS;
            keep_best(&bent->best[w][q], time_batch(&kinds[q], &bent->sheet, bent->pixels[w]));
        }
    keep_best(&bent->check, time_check(&bent->sheet));
}

void measure_bends(int round) {
    for (int k = 0; k < SHEETS; k++) measure_bent(&all_bent[k], round);
}

static void print_bent(const Bent *bent, int w) {
    Mesh mesh = bent->sheet.mesh;
    const double *best = bent->best[w];
    printf("| %" PRIu32 "×%" PRIu32 " lines, %zu bytes | %s, %" PRIu32 " |", mesh.columns, mesh.rows, bent->sheet.len, wheres[w], touching[w]);
    for (int q = 0; q < KINDS; q++) printf(" %.3f µs |", best[q] * 1e6);
    printf(" %.3f µs | **%.2f** |\n", bent->check * 1e6, best[PLAIN] / best[MODULE]);
}

void print_bends(int rounds) {
    printf("\nBends from each piece that touches a pixel, time per call, the best of %d batches; every call checks the whole sheet:\n\n", rounds * BATCHES);
    printf("| sheet | pixels, pieces |");
    for (int q = 0; q < KINDS; q++) printf(" %s |", kinds[q].name);
    printf(" check alone | module/plain C |\n|---|---|---:|---:|---:|---:|---:|\n");
    for (int k = 0; k < SHEETS; k++)
        for (int w = 0; w < WHERES; w++) print_bent(&all_bent[k], w);
}
