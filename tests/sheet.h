/* Sheets for the tests in C. */
#include <stdint.h>
#include <string.h>

static size_t word(uint8_t *sheet, size_t at, uint32_t number) {
    sheet[at] = (uint8_t)number;
    sheet[at + 1] = (uint8_t)(number >> 8);
    return at + 2;
}

/* Writes a sheet with these lines along x and y, flat or with all sorts of numbers, and gives its length. */
static size_t write_sheet(uint8_t *sheet, const uint16_t *lines[2], const uint8_t counts[2], int flat) {
    memcpy(sheet, "LVS\1\0", 5);
    sheet[5] = counts[0];
    sheet[6] = counts[1];
    sheet[7] = 0;
    size_t at = 8;
    for (int axis = 0; axis < 2; axis++)
        for (int k = 0; k < counts[axis]; k++) at = word(sheet, at, lines[axis][k]);
    for (uint32_t k = 0; k < 3u * counts[0] * counts[1]; k++) at = word(sheet, at, flat ? 0 : k * 2654435761u % 8191 - 4095);
    return at;
}
