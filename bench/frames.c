#include "frames.h"

#include <inttypes.h>
#include <limits.h>
#include <stdio.h>
#include <stdlib.h>
#include <string.h>

#include "calls.h"
#include "fail.h"
#include "reference.h"
#include "sheets.h"
#include "timing.h"

static void fill_pixels(const Sheet *sheet, uint32_t y, int32_t *levels) { reference_pixels(sheet->bytes, 0, y, levels, sheet->width); }

static void fill_spans(const Sheet *sheet, uint32_t y, int32_t *levels) { reference_spans(sheet->bytes, 0, y, levels, sheet->width); }

static void fill_double(const Sheet *sheet, uint32_t y, int32_t *levels) { reference_double(sheet->bytes, 0, y, levels, sheet->width); }

static void fill_module(const Sheet *sheet, uint32_t y, int32_t *levels) {
    expect("lvs_fill_run", lvs_fill_run(sheet->bytes, sheet->len, 0, y, levels, sheet->width));
}

typedef struct {
    const char *name;
    void (*fill)(const Sheet *sheet, uint32_t y, int32_t *levels);
    int most_rounds;
    int64_t tolerance; /* how many grains a level may be off */
} Kind;

enum { FRAMES = 4, SLOW_ROUNDS = 3 };
enum { PIXELS, SPANS, DOUBLE, MODULE, KINDS };

static const Kind kinds[KINDS] = {
    {"`pixels`", fill_pixels, SLOW_ROUNDS, 0},
    {"`spans`", fill_spans, INT_MAX, 0},
    {"`double`", fill_double, INT_MAX, 1},
    {"module", fill_module, INT_MAX, 0},
};

/* A sheet, its levels by `pixels`, the best time of each kind and of a check, and how many levels of `double` differ. */
typedef struct {
    Sheet sheet;
    int32_t *want;
    double best[KINDS], check;
    size_t differ;
} Frame;

static const Mesh frame_meshes[FRAMES] = {{33, 33, 61, 33}, {65, 65, 8, 8}, {33, 33, 64, 64}, {65, 65, 32, 17}};

static Frame frames[FRAMES];
static int32_t *got; /* room for the levels of any frame */

static double time_frame(const Kind *kind, const Sheet *sheet, int32_t *levels) {
    double from = now();
    for (uint32_t y = 0; y < sheet->height; y++) kind->fill(sheet, y, levels + (size_t)y * sheet->width);
    return now() - from;
}

/* How many levels differ from the wanted ones; ends the program where one is off by more than the kind may be. */
static size_t compare_levels(const Kind *kind, const Frame *frame) {
    const Sheet *sheet = &frame->sheet;
    size_t differ = 0, wrong = 0, first = 0, all = pixels_of(sheet);
    for (size_t k = 0; k < all; k++) {
        int64_t off = llabs((int64_t)got[k] - frame->want[k]);
        differ += off != 0;
        if (off > kind->tolerance && wrong++ == 0) first = k;
    }
    if (wrong)
        fail("%s: %zu of %zu levels are wrong, cells %" PRIu32 "×%" PRIu32 "; the first at (%zu, %zu): %" PRId32 ", by `pixels` %" PRId32, kind->name, wrong,
             all, sheet->mesh.cell_width, sheet->mesh.cell_height, first % sheet->width, first / sheet->width, got[first], frame->want[first]);
    return differ;
}

/* Sets every level to 0x80808080, which none is: a place that is not written is found. */
static void clear_levels(int32_t *levels, size_t count) { memset(levels, 0x80, count * sizeof *levels); }

static int32_t *room_for_levels(size_t count) {
    int32_t *levels = malloc(count * sizeof *levels);
    if (!levels) fail("no memory for %zu levels", count);
    clear_levels(levels, count);
    return levels;
}

void prepare_frames(void) {
    size_t most = 0;
    for (Frame *frame = frames; frame < frames + FRAMES; frame++) {
        make_sheet(&frame->sheet, frame_meshes[frame - frames]);
        size_t all = pixels_of(&frame->sheet);
        frame->want = room_for_levels(all);
        time_frame(&kinds[PIXELS], &frame->sheet, frame->want);
        if (all > most) most = all;
    }
    got = room_for_levels(most);
}

void free_frames(void) {
    free(got);
    for (int k = 0; k < FRAMES; k++) free(frames[k].want);
}

/* Each kind once, another one first in each round. */
static void measure_frame(Frame *frame, int round) {
    for (int k = 0; k < KINDS; k++) {
        int q = (k + round) % KINDS;
        if (round >= kinds[q].most_rounds) continue;
        clear_levels(got, pixels_of(&frame->sheet));
        keep_best(&frame->best[q], time_frame(&kinds[q], &frame->sheet, got));
        size_t differ = compare_levels(&kinds[q], frame);
        if (q == DOUBLE) frame->differ = differ;
    }
    keep_best(&frame->check, time_check(&frame->sheet));
}

void measure_frames(int round) {
    for (int k = 0; k < FRAMES; k++) measure_frame(&frames[k], round);
}

static void print_frame(const Frame *frame) {
    const Sheet *sheet = &frame->sheet;
    const double *best = frame->best, all = (double)pixels_of(sheet);
    Mesh mesh = sheet->mesh;
    printf("| %" PRIu32 "×%" PRIu32 " lines, cells %" PRIu32 "×%" PRIu32, mesh.columns, mesh.rows, mesh.cell_width, mesh.cell_height);
    printf(" | %" PRIu32 "×%" PRIu32 " |", sheet->width, sheet->height);
    for (int q = 0; q < KINDS; q++) printf(" %.1f |", all / best[q] / 1e6);
    printf(" **%.2f** | %.2f |", best[SPANS] / best[MODULE], best[DOUBLE] / best[MODULE]);
    printf(" %.1f %% |", 100 * frame->check * sheet->height / best[MODULE]);
    printf(" %zu (%.5f %%) |\n", frame->differ, 100 * (double)frame->differ / all);
}

void print_frames(int rounds) {
    int slow_rounds = rounds < SLOW_ROUNDS ? rounds : SLOW_ROUNDS;
    printf("\nMillions of levels per second, a whole mesh row by row, the best of %d (of `pixels`: %d):\n\n", rounds, slow_rounds);
    printf("| sheet | pixels of the mesh |");
    for (int q = 0; q < KINDS; q++) printf(" %s |", kinds[q].name);
    printf(" module/spans | module/double | checks in module | `double` differs |\n|---|---|");
    for (int q = 0; q < KINDS + 4; q++) printf("---:|");
    printf("\n");
    for (int k = 0; k < FRAMES; k++) print_frame(&frames[k]);
}
