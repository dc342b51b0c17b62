/* Draws what calls cost by the length of their message. */
#ifndef PLOT_H
#define PLOT_H

#include <stddef.h>

/* Nanoseconds of a proved call and of the one in C, for each of the plot's lengths. */
typedef struct {
    const char *name;
    const double *ns, *baseline_ns;
} plot_curve;

/* Writes an SVG file with a panel for each curve; gives whether it could. */
int write_plot(const char *path, const size_t *lengths, int length_count,
               const plot_curve *curves, int curve_count);

#endif
