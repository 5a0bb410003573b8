#include "pool.h"

#include <inttypes.h>
#include <stdio.h>
#include <string.h>

#include "calls.h"
#include "fail.h"
#include "reference.h"
#include "sheets.h"
#include "timing.h"

typedef uint32_t Pool(const uint8_t *first, size_t first_len, const uint8_t *second, size_t second_len, uint8_t *target, size_t target_len);

typedef struct {
    const char *name;
    Pool *pool;
} Kind;

enum { POOLED = 3, BATCHES = 10 };
enum { PLAIN, MODULE, KINDS };

static const Kind kinds[KINDS] = {{"plain C", reference_pool}, {"module", lvs_pool}};

/* Two sheets, their pool by plain C, and the best times. */
typedef struct {
    Sheet first, second;
    uint8_t want[LVS_MAX_SHEET], target[LVS_MAX_SHEET];
    double best[KINDS], check;
} Pooled;

static const Mesh pooled_meshes[POOLED] = {{2, 2, 64, 64}, {33, 33, 61, 33}, {65, 65, 32, 17}};

static Pooled all_pooled[POOLED];

/* A sheet with halved numbers, so that no sum is out of range. */
static void make_halved(Sheet *sheet, Mesh mesh) {
    make_sheet(sheet, mesh);
    uint8_t *end = sheet->bytes + sheet->len;
    for (uint8_t *at = end - LVS_NODE_SIZE * mesh.columns * mesh.rows; at < end; at += 2) {
        int32_t half = (int16_t)(at[0] | at[1] << 8) / 2;
        at[0] = (uint8_t)half;
        at[1] = (uint8_t)(half >> 8);
    }
}

/* Ends the program where the target is not the pool: no byte of it may be as it was before. */
static void pool_and_compare(const Kind *kind, Pooled *pooled) {
    const Sheet *first = &pooled->first, *second = &pooled->second;
    for (size_t k = 0; k < first->len; k++) pooled->target[k] = (uint8_t)~pooled->want[k];
    expect(kind->name, kind->pool(first->bytes, first->len, second->bytes, second->len, pooled->target, first->len));
    if (memcmp(pooled->target, pooled->want, first->len) != 0) fail("%s: the pool is not that of plain C", kind->name);
}

void prepare_pools(void) {
    for (Pooled *pooled = all_pooled; pooled < all_pooled + POOLED; pooled++) {
        Sheet *first = &pooled->first, *second = &pooled->second;
        make_halved(first, pooled_meshes[pooled - all_pooled]);
        make_halved(second, pooled_meshes[pooled - all_pooled]);
        expect("plain C", reference_pool(first->bytes, first->len, second->bytes, second->len, pooled->want, first->len));
        for (int q = 0; q < KINDS; q++) pool_and_compare(&kinds[q], pooled);
    }
}

/* Seconds per call, over a batch that takes about a millisecond at most. */
static double time_batch(const Kind *kind, Pooled *pooled) {
    const Sheet *first = &pooled->first, *second = &pooled->second;
    size_t count = 1 + 2000000 / (first->len + 300);
    Pool *volatile pool = kind->pool; /* volatile, so that the compiler inlines none of the calls */
    double from = now();
    for (size_t k = 0; k < count; k++) expect(kind->name, pool(first->bytes, first->len, second->bytes, second->len, pooled->target, first->len));
    return (now() - from) / (double)count;
}

static void measure_pooled(Pooled *pooled, int round) {
    for (int k = 0; k < KINDS * BATCHES; k++) {
        int q = (k + round) % KINDS;
        keep_best(&pooled->best[q], time_batch(&kinds[q], pooled));
    }
    keep_best(&pooled->check, time_check(&pooled->first));
}

void measure_pools(int round) {
    for (int k = 0; k < POOLED; k++) measure_pooled(&all_pooled[k], round);
}

static void print_pooled(const Pooled *pooled) {
    Mesh mesh = pooled->first.mesh;
    printf("| %" PRIu32 "×%" PRIu32 " lines, %zu bytes |", mesh.columns, mesh.rows, pooled->first.len);
    for (int q = 0; q < KINDS; q++) printf(" %.3f µs |", pooled->best[q] * 1e6);
    printf(" %.3f µs | **%.2f** |\n", pooled->check * 1e6, pooled->best[PLAIN] / pooled->best[MODULE]);
}

void print_pools(int rounds) {
    printf("\nTwo sheets pooled, time per call, the best of %d batches; every call checks both sheets:\n\n", rounds * BATCHES);
    printf("| sheets |");
    for (int q = 0; q < KINDS; q++) printf(" %s |", kinds[q].name);
    printf(" check of one alone | module/plain C |\n|---|---:|---:|---:|---:|\n");
    for (int k = 0; k < POOLED; k++) print_pooled(&all_pooled[k]);
}
