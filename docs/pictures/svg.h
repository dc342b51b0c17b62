/*
 * The few shapes that the pictures are made of, written to standard output as SVG.
 *
 * All coordinates are whole pixels, so that the same sizes give the same bytes everywhere.
 * Text is taken to be as wide as the widest usual font has it. Text that does not fit in its box
 * or in the picture ends the program with a message.
 */
#ifndef SVG_H
#define SVG_H

/* How a shape is coloured: as any other, as what is marked, as what follows from it, or pale. */
enum look { PLAIN, MARKED, OUTLINED, PALE };

/* Kinds of text: a picture's heading, names, notes, and what stands small beside something. */
enum face { HEADING, NAME, NOTE, SMALL };

/* Where the point given with a text is. */
enum anchor { START, MIDDLE, END };

/* Text put together as by printf; good until eight more were. */
const char *say(const char *format, ...) __attribute__((format(printf, 1, 2)));

/* Ends the program with a message. */
void fail(const char *message) __attribute__((noreturn));

/* The first and the last of every picture; title and description are for those who can't see it. */
void begin_picture(int width, int height, const char *title, const char *description);
void end_picture(void);

/* How wide a text is at most. */
int text_width(enum face face, const char *words);

/* A text with its baseline at y. */
void text(int x, int y, enum anchor anchor, enum face face, const char *words);

/* A text in the middle of some width. */
void label(int x, int y, int width, enum face face, const char *words);

/* An empty box; one with a name in it; one with a note below the name. */
void box(int x, int y, int width, int height, enum look look);
void box1(int x, int y, int width, int height, enum look look, const char *name);
void box2(int x, int y, int width, int height, enum look look, const char *name, const char *note);

/* Lines; an arrow's tip is at its second point. */
void line(int x1, int y1, int x2, int y2, enum look look);
void dashes(int x1, int y1, int x2, int y2, enum look look);
void arrow(int x1, int y1, int x2, int y2, enum look look);

/* An arrow along n points, of which each two neighbours are joined by a curve that leaves upright. */
void curve(int n, int points[][2], enum look look);

/* The sign of XOR around a point, and how far it reaches. */
void xor_sign(int x, int y, enum look look);
enum { XOR_REACH = 10 };

/* A bracket from x1 to x2 at y, around what is above it or below it. */
void bracket_above(int x1, int x2, int y, enum look look);
void bracket_below(int x1, int x2, int y, enum look look);

/* Three dots in the place of boxes that are left out. */
void dots(int x, int y, int width, int height);

#endif
