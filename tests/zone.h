/* Zones for the tests in C; behind sheet.h. */

/* Writes a zone: left, top, right, bottom, floor, ceiling. Gives where the next one starts. */
static size_t write_zone(uint8_t *zones, size_t at, const int32_t numbers[6]) {
    for (int k = 0; k < 6; k++) at = word(zones, at, (uint32_t)numbers[k]);
    return at;
}
