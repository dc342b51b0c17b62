/* Lines of a screen. */
#include "screen.h"

#include "rasppuce.h"

#include <inttypes.h>
#include <stdio.h>

/* One column is left free, so that no terminal of 80 columns wraps a line. */
enum { COLUMNS = 79 };

static int all_right = 1;

int print_hex(const uint8_t *bytes, size_t len)
{
    int used = 0;
    for (size_t i = 0; i < len; i++)
        used += printf("%s%02x", i > 0 && i % 4 == 0 ? " " : "", bytes[i]);
    return used;
}

void end_line(int used, int holds)
{
    printf("%*s\n", COLUMNS - used, holds ? " OK" : " WRONG");
    if (!holds)
        all_right = 0;
}

void end_refused(int used, uint32_t answer, uint32_t expected, const char *why)
{
    char words[COLUMNS + 1] = "accepted";
    if (answer != RASPPUCE_OK)
        snprintf(words, sizeof words, "refused %" PRIu32 ": %s", answer, rasppuce_meaning(answer));
    printf("%*s\n", COLUMNS - used, words);
    if (answer == expected)
        printf("  Right: %s\n", why);
    expect(answer == expected, "this is not the refusal that there should be.");
}

void expect(int holds, const char *wrong)
{
    if (holds)
        return;
    printf("  WRONG: %s\n", wrong);
    all_right = 0;
}

int end_screen(void)
{
    printf("%s\n", all_right ? "All is as it should be."
                             : "Something is NOT as it should be: see the lines with WRONG.");
    return !all_right;
}
