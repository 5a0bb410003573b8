/* How fast whole meshes are filled with levels, row by row: by the module and by the three kinds of the baseline. */
#ifndef FRAMES_H
#define FRAMES_H

void prepare_frames(void);
void measure_frames(int round); /* ends the program where a level is wrong */
void free_frames(void);
void print_frames(int rounds);

#endif
