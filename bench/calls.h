/* What each call takes by itself, at scattered places of three sheets. */
#ifndef CALLS_H
#define CALLS_H

#include "sheets.h"

void prepare_singles(void); /* ends the program where a reading is not the level that the baseline has there */
void measure_singles(void);
void print_singles(int rounds);
double time_check(Sheet *sheet); /* seconds that one lvs_check takes */

#endif
