#define _POSIX_C_SOURCE 200809L
#include "timing.h"

#include <stdio.h>
#include <time.h>
#include <unistd.h>

double now(void) {
    struct timespec t;
    clock_gettime(CLOCK_MONOTONIC, &t);
    return (double)t.tv_sec + (double)t.tv_nsec * 1e-9;
}

void keep_best(double *best, double seconds) {
    if (*best == 0 || seconds < *best) *best = seconds;
}

/* Seconds that the processors have worked since the machine's start, for all programs together; 0 where Linux does not tell. */
static double busy_seconds(void) {
    unsigned long long ticks[8] = {0}; /* user, nice, system, idle, waiting, two of interrupts, stolen */
    FILE *file = fopen("/proc/stat", "r");
    if (!file) return 0;
    int found = fscanf(file, "cpu");
    for (int k = 0; k < 8 && found != EOF; k++) found = fscanf(file, "%llu", &ticks[k]);
    fclose(file);
    return (double)(ticks[0] + ticks[1] + ticks[2] + ticks[5] + ticks[6] + ticks[7]) / (double)sysconf(_SC_CLK_TCK);
}

static double own_seconds(void) { return (double)clock() / CLOCKS_PER_SEC; }

double others_seconds(void) { return busy_seconds() - own_seconds(); }
