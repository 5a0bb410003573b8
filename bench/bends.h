/* How long it takes to give the bend from each piece that touches a pixel: by the module and by plain C, beside a reading of one bend. */
#ifndef BENDS_H
#define BENDS_H

void prepare_bends(void); /* ends the program where a bend is wrong */
void measure_bends(int round);
void print_bends(int rounds);

#endif
