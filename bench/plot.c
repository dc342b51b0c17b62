/*
 * The plot of cost by length, as an SVG file: side by side a panel for each call, in it a thick line for
 * the proved call and a thin one for C. Every panel has a scale of its own that begins at 0.
 */
#include "plot.h"

#include <stdio.h>

/* A panel's places in pixels; (LEFT, TOP) is the upper end of its vertical axis. */
enum {
    PANEL = 300,
    LEFT = 76,
    TOP = 88,
    WIDTH = 205,
    HEIGHT = 220,
    PICTURE_HEIGHT = TOP + HEIGHT + 60
};

#define PROVED "stroke=\"#8ab6e8\" stroke-width=\"5\" stroke-linecap=\"round\" stroke-linejoin=\"round\""
#define IN_C "stroke=\"#7a1f1f\" stroke-width=\"1.5\""

static FILE *file;

/* ---- scales */

typedef struct {
    double left, most_length, most_ns; /* where the panel begins, and what the ends of its axes stand for */
} scale;

static double x_of(const scale *s, double length)
{
    return s->left + WIDTH * length / s->most_length;
}

static double y_of(const scale *s, double ns)
{
    return TOP + HEIGHT * (1 - ns / s->most_ns);
}

/* The least of 1, 2, 5, 10, 20, 50 and so on that takes at most five steps to `most`. */
static double step_for(double most)
{
    double step = 1;
    for (int i = 0; 5 * step < most; i++)
        step *= i % 3 == 1 ? 2.5 : 2;
    return step;
}

static double largest(const plot_curve *c, int count)
{
    double most = 1;
    for (int i = 0; i < count; i++) {
        most = c->ns[i] > most ? c->ns[i] : most;
        most = c->baseline_ns[i] > most ? c->baseline_ns[i] : most;
    }
    return most;
}

/* ---- parts */

static void line(double x1, double y1, double x2, double y2, const char *style)
{
    fprintf(file, "<line x1=\"%.1f\" y1=\"%.1f\" x2=\"%.1f\" y2=\"%.1f\" %s/>\n", x1, y1, x2, y2, style);
}

static void text(double x, double y, const char *anchor, int size, const char *words)
{
    fprintf(file, "<text x=\"%.1f\" y=\"%.1f\" text-anchor=\"%s\" font-size=\"%d\">%s</text>\n",
            x, y, anchor, size, words);
}

static void number(double x, double y, const char *anchor, double value)
{
    char digits[32];
    snprintf(digits, sizeof digits, "%.0f", value);
    text(x, y, anchor, 12, digits);
}

/* The vertical axis, with a faint line across at each tick. */
static void draw_costs(const scale *s, double step)
{
    for (double ns = 0; ns <= s->most_ns + 0.5; ns += step) {
        line(s->left - 5, y_of(s, ns), s->left, y_of(s, ns), "stroke=\"#333\"");
        if (ns > 0)
            line(s->left, y_of(s, ns), s->left + WIDTH, y_of(s, ns), "stroke=\"#ddd\"");
        number(s->left - 8, y_of(s, ns) + 4, "end", ns);
    }
    line(s->left, TOP, s->left, TOP + HEIGHT, "stroke=\"#333\"");
    text(s->left, TOP - 10, "end", 12, "ns a call");
}

/* The horizontal axis, with a tick every 64 bytes. */
static void draw_lengths(const scale *s)
{
    for (double length = 0; length <= s->most_length; length += 64) {
        line(x_of(s, length), TOP + HEIGHT, x_of(s, length), TOP + HEIGHT + 5, "stroke=\"#333\"");
        number(x_of(s, length), TOP + HEIGHT + 20, "middle", length);
    }
    line(s->left, TOP + HEIGHT, s->left + WIDTH, TOP + HEIGHT, "stroke=\"#333\"");
    text(s->left + WIDTH / 2.0, TOP + HEIGHT + 42, "middle", 12, "bytes of message");
}

static void draw_line(const scale *s, const size_t *lengths, const double *ns, int count, const char *style)
{
    fprintf(file, "<polyline fill=\"none\" %s points=\"", style);
    for (int i = 0; i < count; i++)
        fprintf(file, "%s%.1f,%.1f", i > 0 ? " " : "", x_of(s, (double)lengths[i]), y_of(s, ns[i]));
    fprintf(file, "\"/>\n");
}

static void draw_panel(int place, const size_t *lengths, int count, const plot_curve *c)
{
    double most = largest(c, count), step = step_for(most), top = step;
    while (top < most)
        top += step;
    scale s = {PANEL * place + LEFT, (double)lengths[count - 1], top};
    draw_costs(&s, step);
    draw_lengths(&s);
    draw_line(&s, lengths, c->ns, count, PROVED);
    draw_line(&s, lengths, c->baseline_ns, count, IN_C);
    text(s.left + WIDTH / 2.0, TOP - 10, "middle", 14, c->name);
}

static void draw_legend(void)
{
    line(LEFT, 27, LEFT + 36, 27, PROVED);
    text(LEFT + 48, 31, "start", 13, "proved call");
    line(LEFT + 150, 27, LEFT + 186, 27, IN_C);
    text(LEFT + 198, 31, "start", 13, "the same algorithm in C (gcc -O3)");
}

int write_plot(const char *path, const size_t *lengths, int length_count,
               const plot_curve *curves, int curve_count)
{
    file = fopen(path, "w");
    if (file == NULL)
        return 0;
    int width = PANEL * curve_count + 20;
    fprintf(file,
            "<svg xmlns=\"http://www.w3.org/2000/svg\" width=\"%d\" height=\"%d\" viewBox=\"0 0 %d %d\" "
            "font-family=\"sans-serif\" fill=\"#222\">\n",
            width, PICTURE_HEIGHT, width, PICTURE_HEIGHT);
    fprintf(file, "<title>Cost of a call by the length of its message</title>\n");
    fprintf(file, "<rect width=\"%d\" height=\"%d\" fill=\"white\"/>\n", width, PICTURE_HEIGHT);
    draw_legend();
    for (int i = 0; i < curve_count; i++)
        draw_panel(i, lengths, length_count, &curves[i]);
    fprintf(file, "</svg>\n");
    int written = ferror(file) == 0;
    return fclose(file) == 0 && written;
}
