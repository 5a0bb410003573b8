/* How long it takes to pool two sheets into a third buffer: by the module, and by a plain loop of the baseline with the same checks. */
#ifndef POOL_H
#define POOL_H

void prepare_pools(void); /* ends the program where a pool is wrong */
void measure_pools(int round);
void print_pools(int rounds);

#endif
