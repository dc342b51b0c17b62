/* Writes one picture to standard output, by its name: draw record, draw tape, draw round, draw crates. */
#include "draw.h"

#include <stdio.h>
#include <string.h>

static const struct {
    const char *name;
    void (*draw)(void);
} pictures[] = {
    { "record", draw_record },
    { "tape", draw_tape },
    { "round", draw_round },
    { "crates", draw_crates },
};

/* Draws the picture named. */
int main(int count, char **words)
{
    for (size_t i = 0; count == 2 && i < sizeof pictures / sizeof pictures[0]; i++)
        if (strcmp(words[1], pictures[i].name) == 0) {
            pictures[i].draw();
            return 0;
        }
    fprintf(stderr, "usage: draw record | tape | round | crates\n");
    return 2;
}
