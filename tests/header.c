/* The numbers of light_sheet.h, as the format's description has them, and its calls in plain types. tests/header compiles this, as C and as C++, and sees that
 * no number is left out. The header comes first, so that it brings what it needs, and twice. */
#include "light_sheet.h"
#include "light_sheet.h"

#include <assert.h>

/* refusals, 01's table and 02's */
static_assert(LVS_DONE == 0, "not refused");
static_assert(LVS_MARK == 1, "fewer than 8 bytes, or not the mark");
static_assert(LVS_VERSION == 2, "not the version");
static_assert(LVS_COUNTS == 3, "counts of lines, or byte 7");
static_assert(LVS_LENGTH == 4, "not the length stated");
static_assert(LVS_LINES == 5, "lines");
static_assert(LVS_NODES == 6, "a node's numbers");
static_assert(LVS_OUTSIDE == 7, "outside the mesh");
static_assert(LVS_EMPTY_RUN == 8, "no pixels");
static_assert(LVS_KIND == 9, "no reading kind");
static_assert(LVS_NO_NODE == 10, "no such node");
static_assert(LVS_NEW_NUMBERS == 11, "new numbers");
static_assert(LVS_STIFFNESS == 12, "stiffness");
static_assert(LVS_TOO_STEEP == 13, "a filled slope");
static_assert(LVS_FEW_PLACES == 14, "places for bends");
static_assert(LVS_SECOND == 15, "the second sheet of a pool");
static_assert(LVS_OTHER_LINES == 16, "lines of a pool");
static_assert(LVS_TARGET == 17, "length of a pool");
static_assert(LVS_ZONE_LIST == 18, "length of a list of zones");
static_assert(LVS_ZONE == 19, "a zone's sides and limits");

/* reading kinds */
static_assert(LVS_LEVEL == 0, "the height");
static_assert(LVS_TILT == 1, "the slopes");
static_assert(LVS_BEND == 2, "the second derivatives");

/* limits: 65 lines each way; three numbers of 16 bits; pixels 0 to 4,096; two pieces of each of four cells; six numbers of 16 bits; 16 zones */
static_assert(LVS_MAX_SHEET == 25618, "8 + 2 * 65 + 2 * 65 + 6 * 65 * 65");
static_assert(LVS_NODE_SIZE == 6, "bytes");
static_assert(LVS_MAX_RUN == 4097, "pixels");
static_assert(LVS_BEND_PLACES == 24, "3 * 2 * 4");
static_assert(LVS_ZONE_SIZE == 12, "bytes");
static_assert(LVS_MAX_ZONES == 16, "zones");

/* stack, in bytes */
static_assert(LVS_STACK == 1024, "1 KB");
static_assert(LVS_RUN_STACK == 1024, "the same: a run has no row of its own");

/* the calls, on x86-64 Linux: another type, or another linkage in C++, is an error */
#ifdef __cplusplus
extern "C" {
#endif
unsigned int lvs_check(const unsigned char *, unsigned long);
unsigned int lvs_node_refusal(const unsigned char *, unsigned long, unsigned int, unsigned int);
unsigned long lvs_node_offset(const unsigned char *, unsigned long, unsigned int, unsigned int);
unsigned int lvs_set_node(unsigned char *, unsigned long, unsigned int, unsigned int, int, int, int);
unsigned int lvs_fill_slopes(unsigned char *, unsigned long, unsigned int);
unsigned int lvs_pool(const unsigned char *, unsigned long, const unsigned char *, unsigned long, unsigned char *, unsigned long);
unsigned int lvs_read(const unsigned char *, unsigned long, unsigned int, unsigned int, unsigned int, double[3]);
unsigned int lvs_bends(const unsigned char *, unsigned long, unsigned int, unsigned int, long *, unsigned long, unsigned int *);
unsigned int lvs_fill_run(const unsigned char *, unsigned long, unsigned int, unsigned int, int *, unsigned long);
unsigned int lvs_zoned_level(const unsigned char *, unsigned long, const unsigned char *, unsigned long, unsigned int, unsigned int, int *);
unsigned int lvs_fill_zoned_run(const unsigned char *, unsigned long, const unsigned char *, unsigned long, unsigned int, unsigned int, int *, unsigned long);
#ifdef __cplusplus
}
#endif
