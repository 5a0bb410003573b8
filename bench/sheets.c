#include "sheets.h"

#include <string.h>

#include "fail.h"

/* A number below the bound, from a fixed seed: every run has the same sheets. */
static uint32_t random_below(uint32_t bound) {
    static uint64_t state = 6718;
    state = state * 6364136223846793005u + 1442695040888963407u;
    return (uint32_t)((state >> 32) * bound >> 32);
}

static int32_t random_node_number(void) { return (int32_t)random_below(8191) - 4095; }

static void put_word(Sheet *sheet, uint32_t word) {
    sheet->bytes[sheet->len++] = word & 255;
    sheet->bytes[sheet->len++] = word >> 8 & 255;
}

static void scatter_places(Sheet *sheet) {
    for (Place *at = sheet->places; at < sheet->places + PLACES; at++) {
        at->x = random_below(sheet->width);
        at->y = random_below(sheet->height);
        at->column = random_below(sheet->mesh.columns);
        at->row = random_below(sheet->mesh.rows);
        at->height = random_node_number();
        at->x_slope = random_node_number();
        at->y_slope = random_node_number();
    }
}

void make_sheet(Sheet *sheet, Mesh mesh) {
    const uint8_t header[] = {'L', 'V', 'S', 1, 0, (uint8_t)mesh.columns, (uint8_t)mesh.rows, 0};
    sheet->mesh = mesh;
    sheet->width = (mesh.columns - 1) * mesh.cell_width + 1;
    sheet->height = (mesh.rows - 1) * mesh.cell_height + 1;
    sheet->len = sizeof header;
    memcpy(sheet->bytes, header, sizeof header);
    for (uint32_t i = 0; i < mesh.columns; i++) put_word(sheet, i * mesh.cell_width);
    for (uint32_t j = 0; j < mesh.rows; j++) put_word(sheet, j * mesh.cell_height);
    for (uint32_t k = 0; k < 3 * mesh.columns * mesh.rows; k++) put_word(sheet, (uint32_t)random_node_number());
    scatter_places(sheet);
    expect("lvs_check", lvs_check(sheet->bytes, sheet->len));
}

size_t pixels_of(const Sheet *sheet) { return (size_t)sheet->width * sheet->height; }
