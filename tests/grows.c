/* Watches runs from one instruction to the next. Whatever a run's row holds in between is the row after k steps: its first k places hold their levels, the
 * others, and the guard places around them, what they held. k starts at 0, grows by one at a time, and ends at the run's length; of a run that is refused it
 * stays 0.
 * Zoned runs are watched too. The borders of the zones that hold the row cut it into stretches. Whatever the row holds in between, the places of the stretches
 * before some stretch hold their zoned levels, and those behind it what they held; inside of it each holds what it held, its level or its zoned level.
 * The levels are those of lvs_read. That a run keeps no row of its own, which it would copy place by place, is what tests/stack.c sees. */
#define _GNU_SOURCE
#include <signal.h>
#include <stdio.h>
#include <stdlib.h>
#include <string.h>
#include <unistd.h>

#include "light_sheet.h"
#include "sheet.h"
#include "zone.h"

enum { GUARD = 16, PLACES = GUARD + 1 + LVS_MAX_RUN + GUARD, TRAP = 0x100, TRIAL = 10 };

static int32_t row[PLACES];         /* what is lent lies in it */
static int32_t expected[PLACES];    /* the row after `done` steps */
static int32_t levels[LVS_MAX_RUN]; /* of a zoned run its zoned levels */
static int32_t plain[LVS_MAX_RUN];  /* of a zoned run its levels */
static size_t ends[LVS_MAX_RUN];    /* of a zoned run: where the stretch of each place ends */
static int32_t *lent; /* the first place of the run */
static size_t length; /* how many steps the run is to make */
static volatile size_t done;
static volatile unsigned long looks;
static unsigned long runs, steps, zoned_runs, stretches;

static void fail(const char *why) {
    fprintf(stderr, "grows: %s\n", why);
    exit(1);
}

/* Nothing has changed, or one step more is made. */
static int one_step(void) {
    if (memcmp(row, expected, sizeof row) == 0) return 1;
    if (done == length) return 0;
    expected[(size_t)(lent - row) + done] = levels[done];
    done++;
    return memcmp(row, expected, sizeof row) == 0;
}

/* So many places behind the steps made hold what they held, their levels or their zoned levels. */
static int under_way(size_t count) {
    for (size_t k = done; k < done + count; k++)
        if (lent[k] != expected[(size_t)(lent - row) + k] && lent[k] != plain[k] && lent[k] != levels[k]) return 0;
    return 1;
}

/* Nothing has changed but in the stretch behind the steps made, or that stretch is done and it has in the next one. */
static int one_stretch(void) {
    for (;;) {
        int32_t *made = lent + done;
        size_t left = done < length ? ends[done] - done : 0, before = (size_t)(made - row), behind = before + left;
        if (memcmp(row, expected, before * sizeof *row) == 0 && memcmp(row + behind, expected + behind, (PLACES - behind) * sizeof *row) == 0)
            return under_way(left);
        if (left == 0 || memcmp(made, levels + done, left * sizeof *row) != 0) return 0;
        memcpy(expected + before, levels + done, left * sizeof *row);
        done += left;
        stretches++;
    }
}

static int (*grows)(void) = one_step;

/* Called after each instruction. */
static void look(int signal) {
    (void)signal;
    static const char why[] = "grows: between two instructions the row is not that of the steps made, and not that of one more\n";
    looks++;
    if (grows()) return;
    if (write(2, why, sizeof why - 1) < 0) _exit(2);
    _exit(1);
}

/* With the trap flag the processor reports each instruction once it is done. */
static void watch(void) {
    __asm__ volatile("" ::: "memory");
    __builtin_ia32_writeeflags_u64(__builtin_ia32_readeflags_u64() | TRAP);
}

static void unwatch(void) {
    __builtin_ia32_writeeflags_u64(__builtin_ia32_readeflags_u64() & ~(unsigned long long)TRAP);
    __asm__ volatile("" ::: "memory");
}

/* Whether this machine reports them: some instructions, watched. */
static int reported(void) {
    lent = row + GUARD;
    watch();
    for (int k = 0; k < TRIAL; k++) __asm__ volatile("nop");
    unwatch();
    return looks > TRIAL;
}

/* The row before a run of `count` pixels, which starts on an even or on an odd place, and the levels that it is to have. */
static void prepare(const uint8_t *sheet, size_t len, uint32_t x, uint32_t y, size_t count) {
    for (size_t k = 0; k < PLACES; k++) expected[k] = row[k] = INT32_MIN + (int32_t)k; /* no levels, and another in each place */
    length = count;
    for (size_t k = 0; k < length; k++) {
        double in_steps[3];
        if (lvs_read(sheet, len, x + (uint32_t)k, y, LVS_LEVEL, in_steps) != LVS_DONE) fail("a level of a run is not read");
        levels[k] = (int32_t)(64 * in_steps[0]);
    }
    lent = row + GUARD + (runs + zoned_runs) % 2;
    done = 0;
    looks = 0;
}

/* A run of `count` pixels; refused with `number`, or done. */
static void run(const uint8_t *sheet, size_t len, uint32_t x, uint32_t y, size_t count, enum lvs_refusal number) {
    prepare(sheet, len, x, y, number == LVS_DONE ? count : 0);
    grows = one_step;
    watch();
    uint32_t given = lvs_fill_run(sheet, len, x, y, lent, count);
    unwatch();
    if (given != number) fail("a run gives another number than it should");
    if (looks <= length) fail("a run is not watched");
    if (done != length || memcmp(row, expected, sizeof row) != 0) fail("a run is done, and has not made all its steps");
    runs++;
    steps += length;
}

static uint32_t read_word(const uint8_t *at) { return at[0] | (uint32_t)at[1] << 8; }

static int holds(const uint8_t *zone, uint32_t x, uint32_t y) {
    return read_word(zone) <= x && x <= read_word(zone + 4) && read_word(zone + 2) <= y && y <= read_word(zone + 6);
}

static int32_t zoned(const uint8_t *zones, size_t zones_len, uint32_t x, uint32_t y, int32_t level) {
    for (size_t at = 0; at < zones_len; at += LVS_ZONE_SIZE) {
        if (!holds(zones + at, x, y)) continue;
        int32_t floor = 64 * (int16_t)read_word(zones + at + 8), ceiling = 64 * (int16_t)read_word(zones + at + 10);
        if (level < floor) level = floor;
        if (level > ceiling) level = ceiling;
    }
    return level;
}

/* Whether a stretch ends between this pixel and the next one. */
static int is_cut(const uint8_t *zones, size_t zones_len, uint32_t x, uint32_t y) {
    for (size_t at = 0; at < zones_len; at += LVS_ZONE_SIZE)
        if (holds(zones + at, x, y) != holds(zones + at, x + 1, y)) return 1;
    return 0;
}

/* A zoned run; refused with `number`, or done. */
static void zoned_run(const uint8_t *sheet, size_t len, const uint8_t *zones, size_t zones_len, uint32_t x, uint32_t y, size_t count, enum lvs_refusal number) {
    prepare(sheet, len, x, y, number == LVS_DONE ? count : 0);
    for (size_t k = length; k > 0; k--) {
        uint32_t at = x + (uint32_t)k - 1;
        plain[k - 1] = levels[k - 1];
        levels[k - 1] = zoned(zones, zones_len, at, y, plain[k - 1]);
        ends[k - 1] = k == length || is_cut(zones, zones_len, at, y) ? k : ends[k];
    }
    grows = one_stretch;
    watch();
    uint32_t given = lvs_fill_zoned_run(sheet, len, zones, zones_len, x, y, lent, count);
    unwatch();
    if (given != number) fail("a zoned run gives another number than it should");
    if (looks <= length) fail("a zoned run is not watched");
    memcpy(expected + (size_t)(lent - row), levels, length * sizeof *row);
    if (memcmp(row, expected, sizeof row) != 0) fail("a zoned run is done, and has not its zoned levels");
    stretches += done < length;
    zoned_runs++;
}

/* No zones; zones side by side with gaps, in their row and beside it; each inside the one before; and a run for each condition of its own that refuses one. */
static void zones(uint8_t *sheet) {
    static const uint16_t x[] = {3, 4, 11, 75, 90}, y[] = {0, 1, 6, 70, 79};
    static uint8_t list[LVS_MAX_ZONES * LVS_ZONE_SIZE + 1];
    const uint32_t left = 5, held = 40; /* a row that the first zones hold, and no other */
    size_t len = write_sheet(sheet, (const uint16_t *[]){x, y}, (const uint8_t[]){5, 5}, 0), list_len = 0;
    zoned_run(sheet, len, list, 0, 3, held, 88, LVS_DONE);
    for (int32_t k = 0; k < LVS_MAX_ZONES; k++) {
        int32_t at = (int32_t)left + 4 * k + 2;
        list_len = write_zone(list, list_len, (const int32_t[]){at, held, at + 1, held, 50 * k - 2000, 50 * k + 300});
    }
    zoned_run(sheet, len, list, list_len, left, held, 66, LVS_DONE);
    zoned_run(sheet, len, list, list_len, left + 3, held, 40, LVS_DONE); /* from the last pixel of the first zone */
    zoned_run(sheet, len, list, list_len, left, held + 1, 66, LVS_DONE);
    zoned_run(sheet, len, list, list_len - 1, left, held, 66, LVS_ZONE_LIST);
    zoned_run(sheet, len, list, list_len + 1, left, held, 66, LVS_ZONE_LIST);
    word(list, list_len - 2, 4096);
    zoned_run(sheet, len, list, list_len, left, held, 66, LVS_ZONE);
    zoned_run(sheet, len, list, list_len, left, held, 0, LVS_EMPTY_RUN);
    zoned_run(sheet, len, list, list_len, left, held, 87, LVS_OUTSIDE);
    list_len = 0;
    for (int32_t k = 0; k < LVS_MAX_ZONES; k++)
        list_len = write_zone(list, list_len, (const int32_t[]){6 + k, k, 75 - k, 65535, 100 * (k % 3) - 900, 900 - 100 * (k % 5)});
    zoned_run(sheet, len, list, list_len, left, held, 80, LVS_DONE);
    zoned_run(sheet, len, list, list_len, 30, 8, 46, LVS_DONE);
}

/* Cells of all sorts, narrow, wide, high and flat: a run below the mesh, runs over the whole of it and parts of it. */
static void cells(uint8_t *sheet) {
    static const uint16_t x[] = {3, 4, 11, 75, 90}, y[] = {0, 1, 6, 70, 79};
    size_t len = write_sheet(sheet, (const uint16_t *[]){x, y}, (const uint8_t[]){5, 5}, 0);
    run(sheet, len, 3, 80, 88, LVS_OUTSIDE);
    for (uint32_t j = 0; j <= 79; j += 1 + j / 2) run(sheet, len, 3, j, 88, LVS_DONE);
    for (uint32_t i = 3; i <= 79; i += 1 + i / 2) run(sheet, len, i, i, 1 + (90 - i) / 2, LVS_DONE);
    run(sheet, len, 90, 79, 1, LVS_DONE);
}

/* A run for each condition that refuses one, and the longest row. */
static void longest(uint8_t *sheet) {
    static uint16_t x[65], y[] = {0, 33};
    for (uint16_t k = 0; k < 65; k++) x[k] = (uint16_t)(64 * k);
    size_t len = write_sheet(sheet, (const uint16_t *[]){x, y}, (const uint8_t[]){65, 2}, 0);
    run(sheet, len, 0, 34, LVS_MAX_RUN, LVS_OUTSIDE);
    run(sheet, len, 1, 7, LVS_MAX_RUN, LVS_OUTSIDE);
    run(sheet, len, 1, 7, 0, LVS_EMPTY_RUN);
    run(sheet, len - 1, 0, 7, LVS_MAX_RUN, LVS_LENGTH);
    run(sheet, len, 0, 7, LVS_MAX_RUN, LVS_DONE);
    word(sheet, len - 2, 4096);
    run(sheet, len, 0, 7, LVS_MAX_RUN, LVS_NODES);
    word(sheet, 8, 64);
    run(sheet, len, 0, 7, LVS_MAX_RUN, LVS_LINES);
    sheet[7] = 1;
    run(sheet, len, 0, 7, LVS_MAX_RUN, LVS_COUNTS);
    sheet[3] = 2;
    run(sheet, len, 0, 7, LVS_MAX_RUN, LVS_VERSION);
    sheet[0] = 'l';
    run(sheet, len, 0, 7, LVS_MAX_RUN, LVS_MARK);
}

int main(void) {
    static uint8_t sheet[LVS_MAX_SHEET];
    struct sigaction action = {.sa_handler = look};
    if (sigaction(SIGTRAP, &action, NULL)) fail("the system takes no handler");
    if (!reported()) {
        puts("grows: this machine does not report single instructions, so no run is watched");
        return 0;
    }
    cells(sheet);
    longest(sheet);
    zones(sheet);
    printf("grows: %lu runs, watched instruction by instruction, go through the rows after each of their %lu steps and no other row\n", runs, steps);
    printf("grows: %lu zoned runs go from one of their %lu stretches to the next\n", zoned_runs, stretches);
    return 0;
}
