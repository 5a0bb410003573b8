/* How fast the module fills rows of levels and of zoned ones, fills all slopes of a sheet, gives bends, and pools sheets, beside the plain C baseline on the
 * same sheets in one run, and what each other call takes.
 * Usage: bench [--rounds N] measures and prints Markdown; bench --sheet FILE writes the longest sheet to FILE and prints how many pixels its mesh has. */
#define _POSIX_C_SOURCE 200809L
#include <stdio.h>
#include <stdlib.h>
#include <string.h>
#include <unistd.h>

#include "bends.h"
#include "calls.h"
#include "fail.h"
#include "frames.h"
#include "pool.h"
#include "sheets.h"
#include "slopes.h"
#include "timing.h"
#include "zones.h"

#ifdef __clang__
#define COMPILER __VERSION__
#else
#define COMPILER "gcc " __VERSION__
#endif

enum { ROUNDS = 21, MOST_ROUNDS = 9999 };

static const Mesh longest = {65, 65, 32, 17};

/* Every round has every sheet: where the machine is slow for a while, none has all its rounds then. Gives how many processors other programs kept busy. */
static double measure(int rounds) {
    prepare_frames();
    prepare_singles();
    prepare_slopes();
    prepare_bends();
    prepare_pools();
    prepare_zones();
    double from = now(), others = others_seconds();
    for (int round = 0; round < rounds; round++) {
        measure_frames(round);
        measure_singles();
        measure_slopes(round);
        measure_bends(round);
        measure_pools(round);
        measure_zones(round);
    }
    others = (others_seconds() - others) / (now() - from);
    free_frames();
    return others > 0 ? others : 0;
}

/* The processor's name, as Linux gives it. */
static void find_model(char *model, size_t room) {
    char line[256];
    FILE *file = fopen("/proc/cpuinfo", "r");
    snprintf(model, room, "unknown");
    while (file && fgets(line, sizeof line, file)) {
        char *colon = strchr(line, ':');
        if (strncmp(line, "model name", 10) != 0 || !colon) continue;
        snprintf(model, room, "%s", colon + 1 + strspn(colon + 1, " \t"));
        model[strcspn(model, "\n")] = 0;
        break;
    }
    if (file) fclose(file);
}

static void print_conditions(void) {
    char model[128];
    find_model(model, sizeof model);
    printf("- Processor: %s, %ld online. Compiler of the baseline: %s.\n", model, sysconf(_SC_NPROCESSORS_ONLN), COMPILER);
    printf("- Buffers: cleared before every timing, outside the timed part, with a number that no level has. So all their pages are there, and the caches are "
           "warm: they hold as much of a buffer as fits.\n");
    printf("- The module checks the whole sheet in every call, and is called once for each row of pixels: its figures include that. The baseline checks "
           "nothing, but for bends, pools and zoned rows, where it makes the same checks.\n");
    printf("- After every timing all levels are compared with those of `pixels`. One of `spans` or of the module that differs ends the run, as does one of "
           "`double` that is more than a grain off.\n");
    fflush(stdout);
}

/* Writes the sheet on which the program `levels` is measured, and prints how many lines that must give. */
static int write_sheet(const char *path) {
    static Sheet sheet;
    make_sheet(&sheet, longest);
    FILE *file = fopen(path, "wb");
    size_t written = file ? fwrite(sheet.bytes, 1, sheet.len, file) : 0;
    if (!file || fclose(file) != 0 || written != sheet.len) fail("cannot write %s", path);
    printf("%zu\n", pixels_of(&sheet));
    return 0;
}

static int usage(void) {
    fprintf(stderr, "usage: bench [--rounds N], N from 1 to %d; or bench --sheet FILE\n", MOST_ROUNDS);
    return 2;
}

int main(int argc, char **argv) {
    int rounds = ROUNDS;
    if (argc == 3 && strcmp(argv[1], "--sheet") == 0) return write_sheet(argv[2]);
    if (argc == 3 && strcmp(argv[1], "--rounds") == 0) rounds = atoi(argv[2]);
    else if (argc != 1) return usage();
    if (rounds < 1 || rounds > MOST_ROUNDS) return usage();
    print_conditions();
    double others = measure(rounds);
    printf("- Other programs of the machine meanwhile: on average %.2f processors busy.\n", others);
    print_frames(rounds);
    print_slopes(rounds);
    print_bends(rounds);
    print_pools(rounds);
    print_zones(rounds);
    print_singles(rounds);
    return 0;
}
