/* Light levels of a cinema screen, from a sheet of corrections measured on a mesh over it. The bytes of a sheet and the conditions that refuse a call are in
 * docs/FORMAT.md.
 *
 * Link with liblight_sheet_c.a, for x86-64 Linux: `tools/build light_sheet_archive` proves the module and writes the archive to target/staticlib. The
 * archive has these eleven calls and needs no other library, not even that of C.
 *
 * Of every call:
 * - Nothing is kept from one call to the next, nothing is allocated, no system call is made, errno is not touched. A call always returns, and takes at most
 *   LVS_STACK bytes of stack.
 * - The whole sheet, and the whole list of zones, is checked each time, so neither need be checked first. Any bytes may be passed as a sheet or as zones: none is
 *   read behind its length.
 * - A call that is refused changes no memory that it was lent. The number is that of the first condition, in the order of lvs_refusal, that holds among those
 *   that concern the call; only lvs_pool looks at one of them, 11, out of that order.
 * - Any number of threads may call at once, also on one sheet, as long as no thread sets a node, fills slopes or writes a pool in it meanwhile.
 *
 * The caller's duty, which no call can check:
 * - sheet points to len bytes, first, second, target and zones to first_len, second_len, target_len and zones_len, levels to count numbers, values to three,
 *   bends to places numbers, pieces and level to one; with a length of 0 the pointer is never followed and may be null.
 * - levels, values, bends, pieces, level and target overlap neither a sheet nor zones nor each other, and no other thread writes to what is lent while a call
 *   runs. first and second are only read: they may be one sheet.
 */
#ifndef LIGHT_SHEET_H
#define LIGHT_SHEET_H

#include <stddef.h>
#include <stdint.h>

#ifdef __cplusplus
extern "C" {
#endif

/* Why a call is refused. */
enum lvs_refusal {
    LVS_DONE = 0,         /* not refused */
    LVS_MARK = 1,         /* fewer than 8 bytes, or another mark than LVS */
    LVS_VERSION = 2,      /* the version is not 1 */
    LVS_COUNTS = 3,       /* lines of an axis not 2 to 65, or byte 7 not 0 */
    LVS_LENGTH = 4,       /* the length is not the one that the header states */
    LVS_LINES = 5,        /* a line does not rise, rises by more than 64, or exceeds 4096 */
    LVS_NODES = 6,        /* a height or slope outside -4095 to 4095 */
    LVS_OUTSIDE = 7,      /* the pixel, or the last pixel of a run, lies outside the mesh */
    LVS_EMPTY_RUN = 8,    /* a run of no pixels */
    LVS_KIND = 9,         /* a reading kind above 2 */
    LVS_NO_NODE = 10,     /* no such column or row */
    LVS_NEW_NUMBERS = 11, /* a new height or slope, or a sum of two, outside -4095 to 4095 */
    LVS_STIFFNESS = 12,   /* a stiffness above 64 */
    LVS_TOO_STEEP = 13,   /* a filled slope outside -4095 to 4095 */
    LVS_FEW_PLACES = 14,  /* fewer than 24 places for bends */
    LVS_SECOND = 15,      /* the second sheet would be refused with 1 to 6 */
    LVS_OTHER_LINES = 16, /* the lines of the two sheets differ */
    LVS_TARGET = 17,      /* the target is not as long as the first sheet */
    LVS_ZONE_LIST = 18,   /* a list of zones not a multiple of 12 bytes long, or longer than 192 */
    LVS_ZONE = 19         /* a zone with left above right, top above bottom or floor above ceiling, or with a limit outside -4095 to 4095 */
};

/* What a reading gives: the height of the surface, its slopes, its second derivatives. */
enum lvs_kind {
    LVS_LEVEL = 0, /* one value, in steps of the 12-bit picture code */
    LVS_TILT = 1,  /* two, along x and along y, in steps per pixel */
    LVS_BEND = 2   /* three, xx, xy and yy, in steps per pixel per pixel */
};

/* The largest sheet, in bytes; the bytes of a node; the pixels of the longest row; the places for bends: eight pieces, three numbers each; the bytes of a
 * zone; the most zones of a list. */
#define LVS_MAX_SHEET 25618
#define LVS_NODE_SIZE 6
#define LVS_MAX_RUN 4097
#define LVS_BEND_PLACES 24
#define LVS_ZONE_SIZE 12
#define LVS_MAX_ZONES 16

/* The stack that any call takes at most, in bytes. A run has no row of its own, so it takes no more than that; LVS_RUN_STACK is for code that names it. */
#define LVS_STACK 1024
#define LVS_RUN_STACK 1024

/* Checks a sheet.
 * Returns 0 where it is accepted, else 1 to 6. Writes nothing. */
uint32_t lvs_check(const uint8_t *sheet, size_t len);

/* Says whether the sheet has a node at this column and row, both counted from 0.
 * Returns 0 where it has, else 1 to 6 or 10. Writes nothing. */
uint32_t lvs_node_refusal(const uint8_t *sheet, size_t len, uint32_t column, uint32_t row);

/* Finds a node: its height (in steps) and its slopes along x and y (in grains per pixel; a grain is 1/64 step) are three signed 16-bit numbers, low byte
 * first, in the LVS_NODE_SIZE bytes at sheet + offset.
 * Returns the offset; or 0, where no node lies, exactly where lvs_node_refusal does not return 0. Writes nothing. */
size_t lvs_node_offset(const uint8_t *sheet, size_t len, uint32_t column, uint32_t row);

/* Sets a node to a height, in steps, and slopes along x and y, in grains per pixel.
 * Returns 0, and has written the LVS_NODE_SIZE bytes of the node; or 1 to 6, 10 or 11, and has written nothing. */
uint32_t lvs_set_node(uint8_t *sheet, size_t len, uint32_t column, uint32_t row, int32_t height, int32_t x_slope, int32_t y_slope);

/* Fills every slope of the sheet from its heights. A node's slope along x, in grains per pixel, is
 *     stiffness * (height of the next node in its row - height of the previous one) / (x of the next line - x of the previous one)
 * with heights in steps, rounded to the nearest, a tie up. The first and the last node of a row have no neighbour on one side: there the node itself stands in
 * for it, in the height and in the line. Along y alike, in the node's column. The stiffness is 0 to 64; 0 makes all slopes 0. What the slopes were does not
 * matter, as long as the sheet is accepted.
 * Returns 0, and has written both slopes of every node and kept all other bytes; or 1 to 6, 12 or 13, and has written nothing. */
uint32_t lvs_fill_slopes(uint8_t *sheet, size_t len, uint32_t stiffness);

/* Pools two sheets on the same lines, such as those of screen and lens: target becomes a sheet with the header and lines of the first, each height and slope of
 * which is the sum of the two. It can be pooled again, so a third sheet is added by a second call. The lines are the same where their number and every position
 * are, on both axes. What target held does not matter; refused, it keeps it.
 * After 1 to 6, which the first sheet is refused with, come 15, 16 and 17 in this order, and 11, a sum out of range, last.
 * Returns 0, and has written all of target; or 1 to 6, 11, 15, 16 or 17, and has written nothing. */
uint32_t lvs_pool(const uint8_t *first, size_t first_len, const uint8_t *second, size_t second_len, uint8_t *target, size_t target_len);

/* Reads at a pixel of the mesh; pixels on the outer lines belong to it. kind is one of lvs_kind. The values are whole numbers of grains (level, tilt) or of
 * 1/64 grain (bend), rounded to the nearest, a tie up, and divided by 64 or 4096, which a double holds exactly.
 * Returns 0, and has written the first one, two or three places of values and kept every bit of the others; or 1 to 7 or 9, and has written nothing. */
uint32_t lvs_read(const uint8_t *sheet, size_t len, uint32_t x, uint32_t y, uint32_t kind, double values[3]);

/* Gives the bend from each piece that touches a pixel of the mesh, since bends jump where pieces meet. The diagonals cut a cell into four pieces: 0 top,
 * 1 right, 2 bottom, 3 left. A piece touches the pixel where its triangle holds it, edges and corners included. From one to eight pieces do: one inside a
 * piece, eight at a node inside the mesh.
 * The list runs by cells, row by row, and in a cell by pieces in order of number. Each piece has three numbers, the bend xx, xy and yy in 1/64 grain per pixel
 * per pixel, rounded as lvs_read rounds it. The bend that lvs_read gives is that of the last cell and its first piece in the list, divided by 4096. Level and
 * tilt are the same from every piece. places is at least LVS_BEND_PLACES, also where fewer are written.
 * Returns 0, and has written the count of pieces to *pieces and three places of bends for each of them, from the first place on, and kept every bit of the
 * others; or 1 to 7 or 14, and has written nothing. */
uint32_t lvs_bends(const uint8_t *sheet, size_t len, uint32_t x, uint32_t y, int64_t *bends, size_t places, uint32_t *pieces);

/* Fills a run of levels along a row of pixels: place k of levels gets the level at the pixel (x + k, y), in grains, as lvs_read rounds it.
 * Each level is stored once, from the first place to the last, so a monitor that looks at levels meanwhile sees the row grow. Reading from the last place to
 * the first, it finds, for some k, the first k places with their levels and the others as they were.
 * Returns 0, and has written all count places; or 1 to 8, and has written nothing. */
uint32_t lvs_fill_run(const uint8_t *sheet, size_t len, uint32_t x, uint32_t y, int32_t *levels, size_t count);

/* Gives the zoned level at a pixel of the mesh, in grains: the level, as lvs_read rounds it, and as zones raise and lower it. A zone has a floor, such as
 * subtitles need, and a ceiling, such as exit lamps need.
 * zones is a list of up to LVS_MAX_ZONES zones of LVS_ZONE_SIZE bytes; it may be empty. A zone is six 16-bit numbers, low byte first: left, top, right and
 * bottom, unsigned, its outermost pixels; then floor and ceiling, signed, in steps, from -4095 to 4095. left is at most right, top at most bottom, floor at
 * most ceiling. A zone may lie off the mesh.
 * Each zone that holds the pixel, in the order of the list, raises the level to its floor if it is below, then lowers it to its ceiling if it is above. Where
 * zones lie over each other, the last one that holds the pixel has its limits kept; the level may pass those of an earlier one.
 * Returns 0, and has written the zoned level to *level; or 1 to 7, 18 or 19, and has written nothing. */
uint32_t lvs_zoned_level(const uint8_t *sheet, size_t len, const uint8_t *zones, size_t zones_len, uint32_t x, uint32_t y, int32_t *level);

/* Fills a run of zoned levels along a row of pixels: place k of levels gets what lvs_zoned_level gives at the pixel (x + k, y).
 * The row grows by stretches, each of pixels that the same zones hold: those before are done, those behind as they were. In the one under way a monitor may see
 * plain levels.
 * Returns 0, and has written all count places; or 1 to 8, 18 or 19, and has written nothing. */
uint32_t lvs_fill_zoned_run(const uint8_t *sheet, size_t len, const uint8_t *zones, size_t zones_len, uint32_t x, uint32_t y, int32_t *levels, size_t count);

#ifdef __cplusplus
}
#endif

#endif
