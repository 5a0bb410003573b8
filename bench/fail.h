/* How the run ends where something is wrong: with a message and status 1. */
#ifndef FAIL_H
#define FAIL_H

#include <inttypes.h>

#include "light_sheet.h"

_Noreturn void fail(const char *format, ...);

/* Ends the program where a call is refused: all that are measured must be accepted. Inline, so that a timed loop makes no call for it. */
static inline void expect(const char *call, uint32_t refusal) {
    if (refusal != LVS_DONE) fail("%s was refused with %" PRIu32, call, refusal);
}

#endif
