/* Nudges nodes, one at a time, and looks at every level of the mesh before and after, on the sheets that are named and on some made here. The program `reach`
 * prints the lines for each node. By them, and by the nudge of d steps:
 * - A level that changes lies between the lines, and not on them; a line that runs through the node, the first or the last of its axis, may change too.
 * - The lines are no wider than that: beside each of the others a level changes, in the node's row or column, where d is not small.
 * - No level changes against the sign of d, or by more than 64 * |d| grains; at the node it changes by 64 * d. */
#define _POSIX_C_SOURCE 200809L
#include <stdarg.h>
#include <stdio.h>
#include <stdlib.h>
#include <string.h>

#include "light_sheet.h"
#include "sheet.h"

/* At the pixel beside the far end of an edge of w pixels, a node's height weighs (3w - 2) / w^3: 22 steps are at least a grain there, since w is at most 64. */
enum { GRAINS = 64, MOST = 4095, NOT_SMALL = 22, PIXELS = 1 << 18, ALL_NODES = 100 };
#define INPUT "target/reach_sheets_input"
#define PROGRAM "target/bin/program_reach"

static uint8_t sheet[LVS_MAX_SHEET + 2]; /* and the two bytes of a node */
static size_t len;
static uint32_t counts[2], first[2], last[2]; /* the lines of each axis, and its first and last pixel */
static int32_t before[PIXELS], after[PIXELS];
static char about[100];                   /* the sheet, and the node */
static uint32_t node[2], at[2], lines[4]; /* the node's column and row, and where it is; left, top, right, bottom */
static unsigned long sheets, nodes[3], nudges, looked_at, changed;

_Noreturn static void fail(const char *format, ...) {
    va_list words;
    va_start(words, format);
    fprintf(stderr, "reach_sheets: %s: ", about);
    vfprintf(stderr, format, words);
    fputc('\n', stderr);
    exit(1);
}

static uint32_t line(int axis, uint32_t k) {
    size_t place = 8 + 2 * (axis * counts[0] + k);
    return sheet[place] + 256u * sheet[place + 1];
}

static size_t pixel(uint32_t x, uint32_t y) { return (size_t)(y - first[1]) * (last[0] - first[0] + 1) + (x - first[0]); }

static void read_levels(int32_t *levels) {
    for (uint32_t y = first[1]; y <= last[1]; y++)
        if (lvs_fill_run(sheet, len, first[0], y, levels + pixel(first[0], y), last[0] - first[0] + 1) != LVS_DONE) fail("row %u is not read", y);
}

/* Has the lines of the node printed: just one line, with one blank between. */
static void ask(void) {
    char printed[100], again[100];
    FILE *input = fopen(INPUT, "wb"), *program;
    sheet[len] = (uint8_t)node[0];
    sheet[len + 1] = (uint8_t)node[1];
    if (!input || fwrite(sheet, 1, len + 2, input) != len + 2 || fclose(input)) fail("no input is written");
    if (!(program = popen(PROGRAM " <" INPUT, "r"))) fail("the program does not run");
    printed[fread(printed, 1, sizeof printed - 1, program)] = 0;
    pclose(program);
    int numbers = sscanf(printed, "%u %u %u %u", &lines[0], &lines[1], &lines[2], &lines[3]);
    snprintf(again, sizeof again, "%u %u %u %u\n", lines[0], lines[1], lines[2], lines[3]);
    if (numbers != 4 || strcmp(printed, again) != 0) fail("the program prints '%s'", printed);
    for (int axis = 0; axis < 2; axis++) {
        uint32_t low = lines[axis], high = lines[axis + 2];
        if (low < first[axis] || high > last[axis]) fail("a printed line lies outside the mesh: %s", printed);
        if (low > at[axis] || high < at[axis]) fail("the printed lines do not hold the node: %s", printed);
        if ((low == at[axis] && low > first[axis]) || (high == at[axis] && high < last[axis]))
            fail("a printed line runs through the node and is not the mesh's last: %s", printed);
    }
}

static int may_change(int axis, uint32_t position) {
    uint32_t low = lines[axis], high = lines[axis + 2];
    return (position > low || (position == low && low == at[axis])) && (position < high || (position == high && high == at[axis]));
}

static int32_t change(uint32_t x, uint32_t y) { return after[pixel(x, y)] - before[pixel(x, y)]; }

/* A level in a run is the one that is read. */
static void compare(uint32_t x, uint32_t y) {
    double in_steps[3];
    if (lvs_read(sheet, len, x, y, LVS_LEVEL, in_steps) != LVS_DONE || GRAINS * in_steps[0] != after[pixel(x, y)])
        fail("the level at %u %u is read otherwise than in a run", x, y);
}

static void look(int32_t d) {
    for (uint32_t y = first[1]; y <= last[1]; y++)
        for (uint32_t x = first[0]; x <= last[0]; x++) {
            int32_t by = change(x, y);
            looked_at++;
            if (by == 0) continue;
            changed++;
            if (!may_change(0, x) || !may_change(1, y))
                fail("nudged by %d, the level at %u %u changes, not between the lines %u %u %u %u", d, x, y, lines[0], lines[1], lines[2], lines[3]);
            if ((by > 0) != (d > 0)) fail("nudged by %d, the level at %u %u changes by %d, against its sign", d, x, y, by);
            if (abs(by) > GRAINS * abs(d)) fail("nudged by %d, the level at %u %u changes by %d, too much", d, x, y, by);
        }
    if (change(at[0], at[1]) != GRAINS * d) fail("nudged by %d, the level at the node changes by %d", d, change(at[0], at[1]));
    for (int side = 0; side < 4; side++) {
        uint32_t beside[2] = {at[0], at[1]};
        if (lines[side] == at[side % 2]) continue;
        beside[side % 2] = side < 2 ? lines[side] + 1 : lines[side] - 1;
        compare(beside[0], beside[1]);
        if (abs(d) >= NOT_SMALL && change(beside[0], beside[1]) == 0)
            fail("nudged by %d, the level at %u %u does not change, beside the line at %u", d, beside[0], beside[1], lines[side]);
    }
    for (int k = 0; k < 9; k++) compare((uint32_t[]){lines[0], at[0], lines[2]}[k % 3], (uint32_t[]){lines[1], at[1], lines[3]}[k / 3]);
}

static void nudge(const char *sheet_name, uint32_t column, uint32_t row) {
    static const int32_t some[] = {1, -1, 2, -3, 10, -21, NOT_SMALL, -NOT_SMALL, 300, -2000};
    enum { SOME = sizeof some / sizeof *some };
    snprintf(about, sizeof about, "%s, column %u and row %u", sheet_name, column, row);
    node[0] = column;
    node[1] = row;
    for (int axis = 0; axis < 2; axis++) at[axis] = line(axis, node[axis]);
    ask();
    nodes[(column > 0 && column < counts[0] - 1) + (row > 0 && row < counts[1] - 1)]++;
    size_t offset = lvs_node_offset(sheet, len, column, row);
    int16_t numbers[3];
    for (int k = 0; k < 3; k++) numbers[k] = (int16_t)(sheet[offset + 2 * k] + 256 * sheet[offset + 2 * k + 1]);
    for (int k = 0; k < SOME + 2; k++) {
        int32_t d = k < SOME ? some[k] : k == SOME ? MOST - numbers[0] : -MOST - numbers[0]; /* up to both ends at last */
        if (d == 0 || abs(numbers[0] + d) > MOST) continue;
        if (lvs_set_node(sheet, len, column, row, numbers[0] + d, numbers[1], numbers[2]) != LVS_DONE) fail("the node is not set");
        read_levels(after);
        look(d);
        nudges++;
    }
    if (lvs_set_node(sheet, len, column, row, numbers[0], numbers[1], numbers[2]) != LVS_DONE) fail("the node is not set back");
}

/* Nudges every node of the sheet that lies there, or of a large one those about its corners and middle. */
static void nudge_nodes(const char *sheet_name) {
    snprintf(about, sizeof about, "%s", sheet_name);
    if (lvs_check(sheet, len) != LVS_DONE) fail("the sheet is refused");
    for (int axis = 0; axis < 2; axis++) {
        counts[axis] = sheet[5 + axis];
        first[axis] = line(axis, 0);
        last[axis] = line(axis, counts[axis] - 1);
    }
    if (pixel(last[0], last[1]) >= PIXELS) fail("the sheet has too many pixels");
    read_levels(before);
    unsigned many = counts[0] * counts[1] > ALL_NODES;
    for (uint32_t row = 0; row < counts[1]; row++)
        for (uint32_t column = 0; column < counts[0]; column++) {
            uint32_t of[2] = {column, row}, taken = 0;
            for (int axis = 0; axis < 2; axis++)
                taken += of[axis] < 2 || of[axis] + 2 >= counts[axis] || of[axis] == counts[axis] / 2;
            if (!many || taken == 2) nudge(sheet_name, column, row);
        }
    sheets++;
}

static void read_sheet(const char *path) {
    FILE *file = fopen(path, "rb");
    snprintf(about, sizeof about, "%s", path);
    if (!file) fail("the sheet is not there");
    len = fread(sheet, 1, LVS_MAX_SHEET, file);
    fclose(file);
    const char *folder = strrchr(path, '/');
    nudge_nodes(folder ? folder + 1 : path);
}

/* Lines so many pixels apart. */
static void evenly(const char *sheet_name, uint8_t columns, uint8_t rows, uint16_t gap) {
    static uint16_t x[65], y[65];
    for (uint16_t k = 0; k < 65; k++) x[k] = y[k] = (uint16_t)(gap * k);
    len = write_sheet(sheet, (const uint16_t *[]){x, y}, (const uint8_t[]){columns, rows}, 0);
    nudge_nodes(sheet_name);
}

int main(int count, char **paths) {
    static const uint16_t x[] = {3, 4, 11, 75, 90}, y[] = {4017, 4018, 4023, 4087, 4096};
    for (int k = 1; k < count; k++) read_sheet(paths[k]);
    for (int flat = 0; flat < 2; flat++) { /* narrow, wide, high and low cells */
        len = write_sheet(sheet, (const uint16_t *[]){x, y}, (const uint8_t[]){5, 5}, flat);
        nudge_nodes(flat ? "flat cells of all sorts" : "cells of all sorts");
    }
    evenly("the longest sheet", 65, 65, 1);
    evenly("the largest cells", 3, 3, 64);
    evenly("many cells", 33, 17, 16);
    remove(INPUT);
    printf("reach_sheets: on %lu sheets %lu corner, %lu edge and %lu inner nodes, nudged %lu times, change %lu of %lu levels, all between the printed lines\n",
           sheets, nodes[0], nodes[1], nodes[2], nudges, changed, looked_at);
    return 0;
}
