#include "slopes.h"

#include <inttypes.h>
#include <stdio.h>
#include <string.h>

#include "calls.h"
#include "fail.h"
#include "reference.h"
#include "sheets.h"
#include "timing.h"

static uint32_t fill_by_loop(Sheet *sheet, uint32_t stiffness) { return reference_slopes(sheet->bytes, stiffness); }

static uint32_t fill_by_module(Sheet *sheet, uint32_t stiffness) { return lvs_fill_slopes(sheet->bytes, sheet->len, stiffness); }

typedef struct {
    const char *name;
    uint32_t (*fill)(Sheet *sheet, uint32_t stiffness);
} Kind;

enum { FILLED = 3, BATCHES = 10 };
enum { LOOP, MODULE, KINDS };

static const Kind kinds[KINDS] = {{"plain loop", fill_by_loop}, {"module", fill_by_module}};

/* A sheet, what the loop made of it, and the best times. */
typedef struct {
    Sheet sheet;
    uint32_t stiffness;
    uint8_t want[LVS_MAX_SHEET];
    double best[KINDS], check;
} Filled;

static const Mesh filled_meshes[FILLED] = {{2, 2, 64, 64}, {33, 33, 61, 33}, {65, 65, 32, 17}};

static Filled all_filled[FILLED];

/* Half the shorter side of a cell: 8190 * (side / 2) / side, so no heights are too steep for it. */
static uint32_t stiffness_for(Mesh mesh) { return (mesh.cell_width < mesh.cell_height ? mesh.cell_width : mesh.cell_height) / 2; }

/* Sets both slopes of every node to -4095, which few are: a place that is not written is found. */
static void clear_slopes(Sheet *sheet) {
    size_t nodes = (size_t)sheet->mesh.columns * sheet->mesh.rows;
    for (uint8_t *node = sheet->bytes + sheet->len - LVS_NODE_SIZE * nodes; node < sheet->bytes + sheet->len; node += LVS_NODE_SIZE)
        memcpy(node + 2, "\x01\xf0\x01\xf0", 4);
}

/* Seconds per call, over a batch that takes about a millisecond at most. */
static double time_batch(const Kind *kind, Filled *filled) {
    size_t count = 1 + 400000 / (filled->sheet.len + 300);
    uint32_t (*volatile fill)(Sheet *sheet, uint32_t stiffness) = kind->fill; /* volatile, so that the compiler inlines none of the calls */
    double from = now();
    for (size_t k = 0; k < count; k++) expect(kind->name, fill(&filled->sheet, filled->stiffness));
    return (now() - from) / (double)count;
}

void prepare_slopes(void) {
    for (Filled *filled = all_filled; filled < all_filled + FILLED; filled++) {
        Mesh mesh = filled_meshes[filled - all_filled];
        make_sheet(&filled->sheet, mesh);
        filled->stiffness = stiffness_for(mesh);
        expect("the loop", reference_slopes(filled->sheet.bytes, filled->stiffness));
        memcpy(filled->want, filled->sheet.bytes, filled->sheet.len);
    }
}

static void measure_filled(Filled *filled, int round) {
    for (int k = 0; k < KINDS * BATCHES; k++) {
        int q = (k + round) % KINDS;
        clear_slopes(&filled->sheet);
        keep_best(&filled->best[q], time_batch(&kinds[q], filled));
        if (memcmp(filled->sheet.bytes, filled->want, filled->sheet.len) != 0) fail("%s: the slopes filled are not those of the loop", kinds[q].name);
    }
    keep_best(&filled->check, time_check(&filled->sheet));
}

void measure_slopes(int round) {
    for (int k = 0; k < FILLED; k++) measure_filled(&all_filled[k], round);
}

static void print_filled(const Filled *filled) {
    Mesh mesh = filled->sheet.mesh;
    printf("| %" PRIu32 "×%" PRIu32 " lines, cells %" PRIu32 "×%" PRIu32 " | %" PRIu32 " |", mesh.columns, mesh.rows, mesh.cell_width, mesh.cell_height,
           filled->stiffness);
    for (int q = 0; q < KINDS; q++) printf(" %.2f µs |", filled->best[q] * 1e6);
    printf(" %.2f µs | **%.2f** |\n", filled->check * 1e6, filled->best[LOOP] / filled->best[MODULE]);
}

void print_slopes(int rounds) {
    printf("\nAll slopes filled from heights, time per call, the best of %d batches; the module's has the check of the sheet in it:\n\n", rounds * BATCHES);
    printf("| sheet | stiffness |");
    for (int q = 0; q < KINDS; q++) printf(" %s |", kinds[q].name);
    printf(" check alone | module/loop |\n|---|---:|---:|---:|---:|---:|\n");
    for (int k = 0; k < FILLED; k++) print_filled(&all_filled[k]);
}
