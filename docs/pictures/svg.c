/* The shapes of svg.h, which says of each what it is. */
#include "svg.h"

#include <stdarg.h>
#include <stdio.h>
#include <stdlib.h>

#define INK    "#1f2933"
#define GREY   "#52606d"
#define ACCENT "#c2410c"

static int picture_width, picture_height;

/* ---- words */

const char *say(const char *format, ...)
{
    static char rooms[8][400];
    static unsigned last;
    char *room = rooms[++last % 8];
    va_list values;
    va_start(values, format);
    int length = vsnprintf(room, sizeof rooms[0], format, values);
    va_end(values);
    if (length < 0 || length >= (int)sizeof rooms[0])
        fail("a text is too long");
    return room;
}

void fail(const char *message)
{
    fprintf(stderr, "draw: %s\n", message);
    exit(1);
}

/* Writes words with the signs of XML replaced. */
static void put_words(const char *words)
{
    for (; *words; words++)
        switch (*words) {
        case '&': fputs("&amp;", stdout); break;
        case '<': fputs("&lt;", stdout); break;
        case '>': fputs("&gt;", stdout); break;
        default: putchar(*words);
        }
}

/* The size of a kind of text, in pixels. */
static int size_of(enum face face)
{
    static const int sizes[] = { 19, 14, 13, 12 };
    return sizes[face];
}

/* How wide words are at most: 0.62 of the size for each sign, and 0.7 where they are bold. */
int text_width(enum face face, const char *words)
{
    int signs = 0;
    for (; *words; words++)
        signs++;
    return signs * size_of(face) * (face == HEADING ? 70 : 62) / 100;
}

/* ---- the picture */

/* The tip of an arrow in a colour. */
static void put_tip(const char *name, const char *colour)
{
    printf("<marker id=\"%s\" viewBox=\"0 0 10 10\" refX=\"9\" refY=\"5\" markerWidth=\"9\""
           " markerHeight=\"9\" markerUnits=\"userSpaceOnUse\" orient=\"auto\">"
           "<path d=\"M0 1 L10 5 L0 9 z\" fill=\"%s\"/></marker>\n", name, colour);
}

void begin_picture(int width, int height, const char *title, const char *description)
{
    picture_width = width;
    picture_height = height;
    printf("<svg xmlns=\"http://www.w3.org/2000/svg\" width=\"%d\" height=\"%d\" viewBox=\"0 0 %d %d\""
           " role=\"img\" aria-labelledby=\"title desc\" font-family=\"sans-serif\">\n",
           width, height, width, height);
    printf("<title id=\"title\">");
    put_words(title);
    printf("</title>\n<desc id=\"desc\">");
    put_words(description);
    printf("</desc>\n<defs>\n");
    put_tip("tip", GREY);
    put_tip("marked", ACCENT);
    printf("</defs>\n<rect width=\"%d\" height=\"%d\" fill=\"#ffffff\"/>\n", width, height);
}

void end_picture(void)
{
    printf("</svg>\n");
}

/* ---- text */

void text(int x, int y, enum anchor anchor, enum face face, const char *words)
{
    static const char *anchors[] = { "start", "middle", "end" };
    int width = text_width(face, words);
    int left = x - (anchor == START ? 0 : anchor == MIDDLE ? width / 2 : width);
    if (left < 0 || left + width > picture_width || y < size_of(face) || y + 4 > picture_height)
        fail(say("a text stands out of its picture: %s", words));
    printf("<text x=\"%d\" y=\"%d\" font-size=\"%d\" text-anchor=\"%s\" fill=\"%s\"%s>", x, y, size_of(face),
           anchors[anchor], face == SMALL ? GREY : INK, face == HEADING ? " font-weight=\"bold\"" : "");
    put_words(words);
    printf("</text>\n");
}

void label(int x, int y, int width, enum face face, const char *words)
{
    if (text_width(face, words) > width)
        fail(say("a text is wider than its box: %s", words));
    text(x + width / 2, y, MIDDLE, face, words);
}

/* ---- boxes */

void box(int x, int y, int width, int height, enum look look)
{
    if (x < 0 || y < 0 || x + width > picture_width || y + height > picture_height)
        fail("a box stands out of its picture");
    static const char *fills[] = { "#f5f7fa", "#fde6d8", "#ffffff", "#ffffff" };
    static const char *edges[] = { "#7b8794", ACCENT, ACCENT, "#9aa5b1" };
    printf("<rect x=\"%d\" y=\"%d\" width=\"%d\" height=\"%d\" rx=\"3\" fill=\"%s\" stroke=\"%s\"%s/>\n",
           x, y, width, height, fills[look], edges[look],
           look == MARKED ? " stroke-width=\"2\"" : look == PALE ? " stroke-dasharray=\"4 3\"" : "");
}

void box1(int x, int y, int width, int height, enum look look, const char *name)
{
    box(x, y, width, height, look);
    label(x, y + height / 2 + 5, width, NAME, name);
}

void box2(int x, int y, int width, int height, enum look look, const char *name, const char *note)
{
    box(x, y, width, height, look);
    label(x, y + height / 2 - 3, width, NAME, name);
    label(x, y + height / 2 + 14, width, SMALL, note);
}

void dots(int x, int y, int width, int height)
{
    for (int i = -1; i <= 1; i++)
        printf("<circle cx=\"%d\" cy=\"%d\" r=\"2\" fill=\"%s\"/>\n",
               x + width / 2 + 9 * i, y + height / 2, GREY);
}

/* ---- lines */

/* The colour of lines. */
static const char *ink_of(enum look look)
{
    return look == MARKED || look == OUTLINED ? ACCENT : GREY;
}

/* The rest of a line's element: colour, width, and what else it has. */
static void put_stroke(enum look look, const char *more)
{
    const char *width = look == MARKED ? "2" : "1.2";
    printf(" fill=\"none\" stroke=\"%s\" stroke-width=\"%s\"%s/>\n", ink_of(look), width, more);
}

/* The tip of an arrow, as an attribute. */
static const char *tip_of(enum look look)
{
    return look == MARKED || look == OUTLINED ? " marker-end=\"url(#marked)\"" : " marker-end=\"url(#tip)\"";
}

void line(int x1, int y1, int x2, int y2, enum look look)
{
    printf("<path d=\"M%d %d L%d %d\"", x1, y1, x2, y2);
    put_stroke(look, "");
}

void dashes(int x1, int y1, int x2, int y2, enum look look)
{
    printf("<path d=\"M%d %d L%d %d\"", x1, y1, x2, y2);
    put_stroke(look, " stroke-dasharray=\"3 4\"");
}

void arrow(int x1, int y1, int x2, int y2, enum look look)
{
    printf("<path d=\"M%d %d L%d %d\"", x1, y1, x2, y2);
    put_stroke(look, tip_of(look));
}

void curve(int n, int points[][2], enum look look)
{
    printf("<path d=\"M%d %d", points[0][0], points[0][1]);
    for (int i = 1; i < n; i++) {
        int from = points[i - 1][0], to = points[i][0];
        int middle = (points[i - 1][1] + points[i][1]) / 2;
        if (from == to)
            printf(" L%d %d", to, points[i][1]);
        else
            printf(" C%d %d %d %d %d %d", from, middle, to, middle, to, points[i][1]);
    }
    putchar('"');
    put_stroke(look, tip_of(look));
}

void xor_sign(int x, int y, enum look look)
{
    printf("<circle cx=\"%d\" cy=\"%d\" r=\"%d\" fill=\"#ffffff\" stroke=\"%s\" stroke-width=\"1.2\"/>\n",
           x, y, XOR_REACH, ink_of(look));
    line(x - XOR_REACH, y, x + XOR_REACH, y, look == MARKED ? OUTLINED : look);
    line(x, y - XOR_REACH, x, y + XOR_REACH, look == MARKED ? OUTLINED : look);
}

/* A bracket whose ends are at another height. */
static void bracket(int x1, int x2, int y, int ends, enum look look)
{
    printf("<path d=\"M%d %d L%d %d L%d %d L%d %d\"", x1, ends, x1, y, x2, y, x2, ends);
    put_stroke(look, "");
}

void bracket_above(int x1, int x2, int y, enum look look)
{
    bracket(x1, x2, y, y - 7, look);
}

void bracket_below(int x1, int x2, int y, enum look look)
{
    bracket(x1, x2, y, y + 7, look);
}
