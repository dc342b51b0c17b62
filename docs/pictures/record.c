/* The bytes of a record, narrow and wide, and how its ciphertext and its tag are made. */
#include "draw.h"
#include "rasppuce.h"
#include "svg.h"

#define NARROW RASPPUCE_NARROW
#define WIDE   RASPPUCE_WIDE

/* The bytes of a record of a width before its ciphertext. */
#define BEFORE_TEXT(w) (RASPPUCE_NUMBER_BYTES + RASPPUCE_SEQUENCE_BYTES(w))

#if BEFORE_TEXT(NARROW) + RASPPUCE_TAG_BYTES != RASPPUCE_RECORD_ADDS(NARROW) \
    || BEFORE_TEXT(WIDE) + RASPPUCE_TAG_BYTES != RASPPUCE_RECORD_ADDS(WIDE)
#error "the parts of a record don't add up to RASPPUCE_RECORD_ADDS: the picture has to change"
#endif
#if RASPPUCE_RECORD_ADDS(WIDE) + RASPPUCE_MESSAGE_MOST != RASPPUCE_RECORD_MOST
#error "the longest record isn't the longest message and what a record adds: the picture has to change"
#endif

/* What a counter block has besides the two numbers, of which the second is as long as on a wide link. */
#define INDEX_BYTES (RASPPUCE_BLOCK_BYTES - BEFORE_TEXT(WIDE))

/* How many bytes of it are zeros on a narrow link. */
#define ZERO_BYTES (RASPPUCE_SEQUENCE_BYTES(WIDE) - RASPPUCE_SEQUENCE_BYTES(NARROW))

enum { LEFT = 40, RIGHT = 860, HIGH = 52 };

/* ---- the record */

/* Where the parts of a record begin in the picture, and where it ends. */
static const int edges[] = { LEFT, 190, 350, 670, RIGHT };

/* One part: its offset above it, its size in it. */
static void draw_part(int part, int y, enum look look, const char *offset, const char *name,
                      const char *size)
{
    text(edges[part], y - 8, START, SMALL, offset);
    box2(edges[part], y, edges[part + 1] - edges[part], HIGH, look, name, size);
}

/* A size or an offset that has another value on a wide link. */
static const char *either(const char *before, unsigned narrow, unsigned wide, const char *behind)
{
    return say("%s%u or %u%s", before, narrow, wide, behind);
}

/* All parts, those that the tag covers marked. */
static void draw_parts(int y)
{
    draw_part(0, y, MARKED, "byte 0", "link number", say("%u bytes", RASPPUCE_NUMBER_BYTES));
    draw_part(1, y, MARKED, say("%u", RASPPUCE_NUMBER_BYTES), "sequence number",
              either("", RASPPUCE_SEQUENCE_BYTES(NARROW), RASPPUCE_SEQUENCE_BYTES(WIDE), " bytes"));
    draw_part(2, y, MARKED, either("", BEFORE_TEXT(NARROW), BEFORE_TEXT(WIDE), ""), "ciphertext",
              say("m bytes, as many as the message: 0 to %u", RASPPUCE_MESSAGE_MOST));
    draw_part(3, y, PLAIN, either("m + ", BEFORE_TEXT(NARROW), BEFORE_TEXT(WIDE), ""), "tag",
              say("%u bytes", RASPPUCE_TAG_BYTES));
    text(RIGHT, y - 8, END, SMALL,
         either("m + ", RASPPUCE_RECORD_ADDS(NARROW), RASPPUCE_RECORD_ADDS(WIDE), ""));
}

/* How long a record of a width is. */
static void draw_length(int y, const char *link, unsigned sequence, unsigned adds)
{
    label(LEFT, y, RIGHT - LEFT, NOTE,
          say("%s, sequence number of %u bytes: m + %u bytes in all, from %u, for the empty message, to %u",
              link, sequence, adds, adds, adds + RASPPUCE_MESSAGE_MOST));
}

/* Below each part, what makes it; below all, what the tag covers and how long a record is. */
static void draw_makers(int y)
{
    label(edges[0], y, edges[2] - edges[0], NOTE, "in the clear");
    label(edges[2], y, edges[3] - edges[2], NOTE, "made with KE");
    label(edges[3], y, edges[4] - edges[3], NOTE, "made with KM");
    bracket_above(edges[0], edges[3], y + 20, MARKED);
    label(edges[0], y + 38, edges[3] - edges[0], NOTE, "the tag covers every byte before it");
    arrow(RIGHT / 2, y + 62, LEFT, y + 62, PLAIN);
    arrow(RIGHT / 2, y + 62, RIGHT, y + 62, PLAIN);
    draw_length(y + 80, "narrow link", RASPPUCE_SEQUENCE_BYTES(NARROW), RASPPUCE_RECORD_ADDS(NARROW));
    draw_length(y + 98, "wide link", RASPPUCE_SEQUENCE_BYTES(WIDE), RASPPUCE_RECORD_ADDS(WIDE));
}

/* ---- how its parts are made */

/* A counter block from the left edge on, with the record's numbers in it. Returns its right edge. */
static int draw_counter(int y, enum look numbers, const char *index)
{
    int x = LEFT;
    box2(x, y, 120, HIGH, numbers, "link number", say("%u bytes", RASPPUCE_NUMBER_BYTES));
    x += 120;
    box2(x, y, 250, HIGH, numbers, "sequence number",
         say("%u bytes; if narrow, %u zeros first", RASPPUCE_SEQUENCE_BYTES(WIDE), ZERO_BYTES));
    x += 250;
    box2(x, y, 70, HIGH, PLAIN, index, say("%u bytes", INDEX_BYTES));
    x += 70;
    bracket_above(LEFT, x, y + HIGH + 14, PLAIN);
    return x;
}

/* Block i of the ciphertext: the counter block with index i under KE, and the message block. */
static void draw_ciphertext(int y)
{
    text(LEFT, y - 12, START, NAME,
         say("The ciphertext: CTR under KE, by blocks of %u bytes; the last may be shorter",
             RASPPUCE_BLOCK_BYTES));
    int x = draw_counter(y, PLAIN, "i");
    int middle = y + HIGH / 2;
    label(LEFT, y + HIGH + 30, x - LEFT, NOTE, "counter block i, counted from 0");
    arrow(x, middle, x + 26, middle, PLAIN);
    box2(x + 26, y, 104, HIGH, PLAIN, "BAKSHEESH", "under KE");
    x += 130;
    arrow(x, middle, x + 64, middle, PLAIN);
    xor_sign(x + 74, middle, PLAIN);
    box2(x + 24, y + HIGH + 8, 100, 40, PLAIN, "message", "block i");
    arrow(x + 74, y + HIGH + 8, x + 74, middle + XOR_REACH, PLAIN);
    arrow(x + 84, middle, x + 152, middle, PLAIN);
    box2(x + 152, y, RIGHT - x - 152, HIGH, MARKED, "ciphertext", "block i");
}

/* The tag: counter block 0 and then the ciphertext under KM. */
static void draw_tag(int y)
{
    text(LEFT, y - 12, START, NAME, "The tag: CMAC under KM, of counter block 0 and then the ciphertext");
    int x = draw_counter(y, MARKED, "0");
    int middle = y + HIGH / 2;
    label(LEFT, y + HIGH + 30, x - LEFT, NOTE, "counter block 0, with the record's two numbers");
    box2(x, y, 110, HIGH, MARKED, "ciphertext", "m bytes");
    x += 110;
    arrow(x, middle, x + 36, middle, PLAIN);
    box2(x + 36, y, 104, HIGH, PLAIN, "CMAC", "under KM");
    x += 140;
    arrow(x, middle, x + 36, middle, PLAIN);
    box2(x + 36, y, RIGHT - x - 36, HIGH, PLAIN, "tag", say("%u bytes", RASPPUCE_TAG_BYTES));
}

/* The whole picture. */
void draw_record(void)
{
    begin_picture(900, 528, "The bytes of a record",
                  say("A record is a link number of %u bytes, a sequence number of %u, a ciphertext as long"
                      " as the message and a tag of %u: %u to %u bytes. On a wide link the sequence number"
                      " has %u bytes: %u to %u bytes. KE makes the ciphertext, KM the tag, which covers all"
                      " before it.",
                      RASPPUCE_NUMBER_BYTES, RASPPUCE_SEQUENCE_BYTES(NARROW), RASPPUCE_TAG_BYTES,
                      RASPPUCE_RECORD_ADDS(NARROW), RASPPUCE_RECORD_ADDS(NARROW) + RASPPUCE_MESSAGE_MOST,
                      RASPPUCE_SEQUENCE_BYTES(WIDE), RASPPUCE_RECORD_ADDS(WIDE), RASPPUCE_RECORD_MOST));
    text(LEFT, 36, START, HEADING, "A record");
    draw_parts(76);
    draw_makers(148);
    draw_ciphertext(284);
    draw_tag(434);
    end_picture();
}
