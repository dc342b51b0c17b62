/* Lines of a screen: hexadecimal digits, verdicts at the right edge, and the last line. */
#ifndef SCREEN_H
#define SCREEN_H

#include <stddef.h>
#include <stdint.h>

/* Prints bytes in hexadecimal digits, in groups of four bytes; returns the columns they take. */
int print_hex(const uint8_t *bytes, size_t len);

/* Ends a line of which `used` columns are taken: with OK, or with WRONG if it does not hold. */
void end_line(int used, int holds);

/*
 * Ends a line with the answer to a record: accepted, or refused under a number and in words. The
 * next line says why that is right, or that it is wrong if another answer was expected.
 */
void end_refused(int used, uint32_t answer, uint32_t expected, const char *why);

/* Prints a line that says what is wrong, if it does not hold. */
void expect(int holds, const char *wrong);

/* Prints whether everything held; returns the exit status, 0 if so and 1 if not. */
int end_screen(void);

#endif
