/* How long it takes to fill every slope of a sheet from its heights: by the module, and by a plain loop of the baseline. */
#ifndef SLOPES_H
#define SLOPES_H

void prepare_slopes(void);
void measure_slopes(int round); /* ends the program where a byte is wrong */
void print_slopes(int rounds);

#endif
