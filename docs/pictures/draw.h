/* The pictures: each writes itself to standard output. */
#ifndef DRAW_H
#define DRAW_H

void draw_record(void);
void draw_tape(void);
void draw_round(void);
void draw_crates(void); /* reads crates.txt in the current folder */

#endif
