/* Makes every call on a stack of the size that light_sheet.h promises, with nothing below it that may be touched: a call that takes more ends the test.
 * The calls are made on the longest sheet, flat and not, on the shortest, and on one for each condition on a sheet, so that each number is given that a call
 * can give. */
#define _GNU_SOURCE
#include <signal.h>
#include <stdio.h>
#include <stdlib.h>
#include <string.h>
#include <sys/mman.h>
#include <unistd.h>

#include "light_sheet.h"
#include "sheet.h"
#include "zone.h"

enum { UNTOUCHABLE = 1 << 28, ROOM = 1 << 16, LONGEST_LINES = 65 };

static unsigned char *lowest; /* of the stack; below it all is untouchable */
static const char *name;      /* of the call that is made */
static unsigned long made;

static void fail(const char *why) {
    fprintf(stderr, "stack: %s %s\n", name, why);
    exit(1);
}

static void past_the_stack(int signal) {
    (void)signal;
    static const char why[] = " goes past the stack that the header promises\n";
    if (write(2, "stack: ", 7) < 0 || write(2, name, strlen(name)) < 0 || write(2, why, sizeof why - 1) < 0) _exit(2);
    _exit(1);
}

static void prepare(void) {
    name = "the system";
    unsigned char *pages = mmap(NULL, UNTOUCHABLE + ROOM, PROT_NONE, MAP_PRIVATE | MAP_ANONYMOUS | MAP_NORESERVE, -1, 0);
    if (pages == MAP_FAILED || mprotect(pages + UNTOUCHABLE, ROOM, PROT_READ | PROT_WRITE)) fail("has no pages for a stack");
    lowest = pages + UNTOUCHABLE;
    static unsigned char room[1 << 16];
    stack_t other = {.ss_sp = room, .ss_size = sizeof room};
    struct sigaction action = {.sa_handler = past_the_stack, .sa_flags = SA_ONSTACK};
    if (sigaltstack(&other, NULL) || sigaction(SIGSEGV, &action, NULL) || sigaction(SIGBUS, &action, NULL)) fail("takes no handler");
}

/* Calls make(call) with `size` bytes of stack. */
static void on_stack(size_t size, void (*make)(void *), void *call) {
    __asm__ volatile(
        "movq %%rsp, %%rbx\n\t"
        "movq %[top], %%rsp\n\t"
        "callq *%[make]\n\t"
        "movq %%rbx, %%rsp"
        : "+D"(call)
        : [top] "r"(lowest + size), [make] "r"(make)
        : "rbx", "rax", "rcx", "rdx", "rsi", "r8", "r9", "r10", "r11", "xmm0", "xmm1", "xmm2", "xmm3", "xmm4", "xmm5", "xmm6", "xmm7", "xmm8", "xmm9",
          "xmm10", "xmm11", "xmm12", "xmm13", "xmm14", "xmm15", "memory", "cc");
    made++;
}

/* What a call takes and gives. */
struct call {
    uint8_t *sheet; /* the first one of a pool */
    size_t len;
    const uint8_t *second, *zones;
    uint8_t *target;
    size_t second_len, target_len, zones_len;
    uint32_t x, y, kind, stiffness;
    int32_t height;
    int32_t *levels;
    size_t count, places;
    double values[3];
    int64_t bends[LVS_BEND_PLACES];
    uint32_t pieces;
    int32_t level;
    size_t given;
};

static void make_check(void *of) {
    struct call *c = of;
    c->given = lvs_check(c->sheet, c->len);
}

static void make_node_refusal(void *of) {
    struct call *c = of;
    c->given = lvs_node_refusal(c->sheet, c->len, c->x, c->y);
}

static void make_node_offset(void *of) {
    struct call *c = of;
    c->given = lvs_node_offset(c->sheet, c->len, c->x, c->y);
}

static void make_set_node(void *of) {
    struct call *c = of;
    c->given = lvs_set_node(c->sheet, c->len, c->x, c->y, c->height, -7, 9);
}

static void make_fill_slopes(void *of) {
    struct call *c = of;
    c->given = lvs_fill_slopes(c->sheet, c->len, c->stiffness);
}

static void make_pool(void *of) {
    struct call *c = of;
    c->given = lvs_pool(c->sheet, c->len, c->second, c->second_len, c->target, c->target_len);
}

static void make_read(void *of) {
    struct call *c = of;
    c->given = lvs_read(c->sheet, c->len, c->x, c->y, c->kind, c->values);
}

static void make_bends(void *of) {
    struct call *c = of;
    c->given = lvs_bends(c->sheet, c->len, c->x, c->y, c->bends, c->places, &c->pieces);
}

static void make_fill_run(void *of) {
    struct call *c = of;
    c->given = lvs_fill_run(c->sheet, c->len, c->x, c->y, c->levels, c->count);
}

static void make_zoned_level(void *of) {
    struct call *c = of;
    c->given = lvs_zoned_level(c->sheet, c->len, c->zones, c->zones_len, c->x, c->y, &c->level);
}

static void make_fill_zoned_run(void *of) {
    struct call *c = of;
    c->given = lvs_fill_zoned_run(c->sheet, c->len, c->zones, c->zones_len, c->x, c->y, c->levels, c->count);
}

static void expect(const char *called, size_t size, void (*make)(void *), struct call call, size_t given) {
    name = called;
    on_stack(size, make, &call);
    if (call.given != given) fail("gives another number than it should");
}

#define EXPECT(which, size, given, ...) expect("lvs_" #which, size, make_##which, (struct call){__VA_ARGS__}, given)
#define SHEET .sheet = sheet, .len = len

/* A sheet with so many lines each way, `gap` apart. */
static size_t even_sheet(uint8_t *sheet, uint8_t count, uint16_t gap, int flat) {
    uint16_t lines[LONGEST_LINES];
    for (uint8_t k = 0; k < count; k++) lines[k] = (uint16_t)(k * gap);
    return write_sheet(sheet, (const uint16_t *[]){lines, lines}, (const uint8_t[]){count, count}, flat);
}

/* Every call on a sheet that is refused with this number. */
static void refused(uint8_t *sheet, size_t len, enum lvs_refusal number) {
    static int32_t levels[4];
    EXPECT(check, LVS_STACK, number, SHEET);
    EXPECT(node_refusal, LVS_STACK, number, SHEET);
    EXPECT(node_offset, LVS_STACK, 0, SHEET);
    EXPECT(set_node, LVS_STACK, number, SHEET);
    EXPECT(fill_slopes, LVS_STACK, number, SHEET);
    EXPECT(pool, LVS_STACK, number, SHEET, .second = sheet, .second_len = len);
    EXPECT(read, LVS_STACK, number, SHEET);
    EXPECT(bends, LVS_STACK, number, SHEET, .places = LVS_BEND_PLACES);
    EXPECT(fill_run, LVS_STACK, number, SHEET, .levels = levels, .count = 4);
    EXPECT(zoned_level, LVS_STACK, number, SHEET);
    EXPECT(fill_zoned_run, LVS_STACK, number, SHEET, .levels = levels, .count = 4);
}

/* An accepted sheet, with so many lines each way that lie `gap` apart, pooled with a flat one: done, and refused by each condition of its own. */
static void pooled(uint8_t *sheet, size_t len, uint8_t lines, uint16_t gap) {
    static uint8_t flat[LVS_MAX_SHEET], target[LVS_MAX_SHEET];
    EXPECT(set_node, LVS_STACK, LVS_DONE, SHEET, .x = lines - 1u, .y = lines - 1u, .height = 4095);
    even_sheet(flat, lines, gap, 1);
    EXPECT(pool, LVS_STACK, LVS_DONE, SHEET, .second = flat, .second_len = len, .target = target, .target_len = len);
    EXPECT(pool, LVS_STACK, LVS_TARGET, SHEET, .second = flat, .second_len = len, .target = target, .target_len = len - 1);
    EXPECT(pool, LVS_STACK, LVS_SECOND, SHEET, .second = flat, .second_len = len - 1, .target = target, .target_len = len);
    word(flat, len - LVS_NODE_SIZE, 1); /* the last height: the sum is 4096 */
    EXPECT(pool, LVS_STACK, LVS_NEW_NUMBERS, SHEET, .second = flat, .second_len = len, .target = target, .target_len = len);
    even_sheet(flat, lines, gap > 1 ? gap - 1 : 2, 1);
    EXPECT(pool, LVS_STACK, LVS_OTHER_LINES, SHEET, .second = flat, .second_len = len, .target = target, .target_len = len);
}

/* Slopes of an accepted sheet whose lines lie `gap` apart, filled: done, and refused by each condition of its own. */
static void filled(uint8_t *sheet, size_t len, uint32_t gap) {
    EXPECT(fill_slopes, LVS_STACK, LVS_STIFFNESS, SHEET, .stiffness = 65);
    EXPECT(fill_slopes, LVS_STACK, LVS_DONE, SHEET, .stiffness = gap / 2); /* 8190 * (gap / 2) / gap: no heights are too steep for it */
    EXPECT(set_node, LVS_STACK, LVS_DONE, SHEET, .x = 0, .height = 4095);
    EXPECT(set_node, LVS_STACK, LVS_DONE, SHEET, .x = 1, .height = -4095);
    EXPECT(fill_slopes, LVS_STACK, LVS_TOO_STEEP, SHEET, .stiffness = gap);
}

/* Bends on an accepted sheet whose lines lie `gap` apart, the last at `last`: at nodes, where most pieces touch, in the middle of edges and cells, and refused
 * by each condition of its own. */
static void bent(uint8_t *sheet, size_t len, uint32_t gap, uint32_t last) {
    uint32_t step = gap > 1 ? gap / 2 : 1;
    for (uint32_t y = 0; y <= last; y += step)
        for (uint32_t x = 0; x <= last; x += step) EXPECT(bends, LVS_STACK, LVS_DONE, SHEET, .x = x, .y = y, .places = LVS_BEND_PLACES);
    EXPECT(bends, LVS_STACK, LVS_OUTSIDE, SHEET, .y = last + 1, .places = LVS_BEND_PLACES);
    EXPECT(bends, LVS_STACK, LVS_FEW_PLACES, SHEET, .places = LVS_BEND_PLACES - 1);
}

/* Zoned levels and runs of an accepted sheet whose last lines lie at `last`, its rows cut by the borders of up to 16 zones: done, and refused by each condition of
 * its own. */
static void zoned(uint8_t *sheet, size_t len, uint32_t last) {
    static int32_t levels[LVS_MAX_RUN];
    static uint8_t zones[LVS_MAX_ZONES * LVS_ZONE_SIZE + 1];
    const uint32_t row = last + 1;
    size_t zones_len = 0;
    for (int32_t k = 0, width = (int32_t)last / (2 * LVS_MAX_ZONES + 1); k < LVS_MAX_ZONES; k++) {
        int32_t left = (2 * k + 1) * width;
        zones_len = write_zone(zones, zones_len, (const int32_t[]){left, k, left + width, 65535 - k, k - 4095, k});
    }
    for (uint32_t y = 0; y <= last; y += 1 + last / 17) {
        for (size_t used = 0; used <= zones_len; used += 4 * LVS_ZONE_SIZE) {
            EXPECT(zoned_level, LVS_STACK, LVS_DONE, SHEET, .zones = zones, .zones_len = used, .x = last - y, .y = y);
            EXPECT(fill_zoned_run, LVS_STACK, LVS_DONE, SHEET, .zones = zones, .zones_len = used, .y = y, .levels = levels, .count = row);
        }
    }
    EXPECT(zoned_level, LVS_STACK, LVS_OUTSIDE, SHEET, .zones = zones, .zones_len = zones_len, .x = last + 1);
    EXPECT(zoned_level, LVS_STACK, LVS_ZONE_LIST, SHEET, .zones = zones, .zones_len = zones_len + 1);
    EXPECT(fill_zoned_run, LVS_STACK, LVS_OUTSIDE, SHEET, .zones = zones, .zones_len = zones_len, .x = 1, .levels = levels, .count = row);
    EXPECT(fill_zoned_run, LVS_STACK, LVS_EMPTY_RUN, SHEET, .zones = zones, .zones_len = zones_len);
    EXPECT(fill_zoned_run, LVS_STACK, LVS_ZONE_LIST, SHEET, .zones = zones, .zones_len = zones_len - 1, .levels = levels, .count = row);
    word(zones, zones_len - 2, 4096); /* the last ceiling */
    EXPECT(zoned_level, LVS_STACK, LVS_ZONE, SHEET, .zones = zones, .zones_len = zones_len);
    EXPECT(fill_zoned_run, LVS_STACK, LVS_ZONE, SHEET, .zones = zones, .zones_len = zones_len, .levels = levels, .count = row);
}

/* Every call on an accepted sheet with so many lines each way, the last at `last`: done, and refused by each condition of its own. */
static void accepted(uint8_t *sheet, size_t len, uint32_t lines, uint32_t last) {
    static int32_t levels[LVS_MAX_RUN];
    EXPECT(check, LVS_STACK, LVS_DONE, SHEET);
    for (uint32_t k = 0; k < lines; k++) {
        EXPECT(node_refusal, LVS_STACK, LVS_DONE, SHEET, .x = k, .y = lines - 1 - k);
        EXPECT(node_offset, LVS_STACK, len - LVS_NODE_SIZE * (k + 1), SHEET, .x = lines - 1 - k, .y = lines - 1);
        EXPECT(set_node, LVS_STACK, LVS_DONE, SHEET, .x = k, .y = lines - 1 - k, .height = (int32_t)(k * k) - 2000);
    }
    EXPECT(node_refusal, LVS_STACK, LVS_NO_NODE, SHEET, .x = lines);
    EXPECT(node_offset, LVS_STACK, 0, SHEET, .y = lines);
    EXPECT(set_node, LVS_STACK, LVS_NO_NODE, SHEET, .x = lines);
    EXPECT(set_node, LVS_STACK, LVS_NEW_NUMBERS, SHEET, .height = 4096);
    for (uint32_t y = 0; y <= last; y += 1 + last / 97) {
        for (uint32_t x = 0; x <= last; x += 1 + last / 89)
            for (uint32_t kind = LVS_LEVEL; kind <= LVS_BEND; kind++) EXPECT(read, LVS_STACK, LVS_DONE, SHEET, .x = x, .y = y, .kind = kind);
        EXPECT(fill_run, LVS_STACK, LVS_DONE, SHEET, .y = y, .levels = levels, .count = last + 1);
        EXPECT(fill_run, LVS_STACK, LVS_DONE, SHEET, .x = y, .y = y, .levels = levels, .count = 1);
    }
    EXPECT(read, LVS_STACK, LVS_OUTSIDE, SHEET, .x = last + 1);
    EXPECT(read, LVS_STACK, LVS_KIND, SHEET, .kind = LVS_BEND + 1);
    EXPECT(fill_run, LVS_STACK, LVS_OUTSIDE, SHEET, .x = 1, .levels = levels, .count = last + 1);
    EXPECT(fill_run, LVS_STACK, LVS_EMPTY_RUN, SHEET, .levels = levels, .count = 0);
    zoned(sheet, len, last);
    bent(sheet, len, last / (lines - 1), last);
    pooled(sheet, len, (uint8_t)lines, (uint16_t)(last / (lines - 1)));
    filled(sheet, len, last / (lines - 1));
}

int main(void) {
    static uint8_t sheet[LVS_MAX_SHEET + LVS_NODE_SIZE];
    prepare();
    name = "the longest sheet";
    size_t len = even_sheet(sheet, LONGEST_LINES, 64, 1);
    if (len != LVS_MAX_SHEET || 64 * (LONGEST_LINES - 1) + 1 != LVS_MAX_RUN) fail("is not as long and wide as the header says");
    accepted(sheet, len, LONGEST_LINES, LVS_MAX_RUN - 1);
    even_sheet(sheet, LONGEST_LINES, 64, 0);
    accepted(sheet, len, LONGEST_LINES, LVS_MAX_RUN - 1);
    refused(sheet, len - 1, LVS_LENGTH);
    word(sheet, 8, 4096);
    refused(sheet, len, LVS_LINES);
    even_sheet(sheet, LONGEST_LINES, 64, 0);
    word(sheet, len - 2, 4096);
    refused(sheet, len, LVS_NODES);
    len = even_sheet(sheet, 2, 1, 0);
    accepted(sheet, len, 2, 1);
    sheet[6] = 66;
    refused(sheet, len, LVS_COUNTS);
    sheet[3] = 2;
    refused(sheet, len, LVS_VERSION);
    sheet[0] = 'l';
    refused(sheet, len, LVS_MARK);
    printf("stack: %lu calls keep to %d bytes of stack\n", made, LVS_STACK);
    return 0;
}
