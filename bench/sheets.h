/* The sheets on which all is measured: random nodes on a mesh, and places scattered over it. */
#ifndef SHEETS_H
#define SHEETS_H

#include "light_sheet.h"

enum { PLACES = 1024 };

/* Lines each way, and the pixels of a cell: all cells of a sheet are alike. */
typedef struct {
    uint32_t columns, rows, cell_width, cell_height;
} Mesh;

/* A pixel, a node, and new numbers for the node. */
typedef struct {
    uint32_t x, y, column, row;
    int32_t height, x_slope, y_slope;
} Place;

typedef struct {
    Mesh mesh;
    uint32_t width, height; /* in pixels, the outer lines included */
    size_t len;
    uint8_t bytes[LVS_MAX_SHEET];
    Place places[PLACES]; /* scattered over the mesh */
} Sheet;

void make_sheet(Sheet *sheet, Mesh mesh); /* of random nodes, its first lines at 0 */
size_t pixels_of(const Sheet *sheet);

#endif
