/* How long it takes to fill a row of zoned levels: by the module, by plain C, and beside a plain run of the module's on the same row. */
#ifndef ZONES_H
#define ZONES_H

void prepare_zones(void); /* ends the program where a zoned level is not that of plain C */
void measure_zones(int round);
void print_zones(int rounds);

#endif
