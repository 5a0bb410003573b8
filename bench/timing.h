/* Times, in seconds: the clock, the best ones, and what the processors work for other programs. */
#ifndef TIMING_H
#define TIMING_H

double now(void);
void keep_best(double *best, double seconds); /* a best time of 0 is none yet */
double others_seconds(void);                  /* of work for other programs: only the difference of two such figures tells something */

#endif
