/* The bytes of a tape: the masks of the keys, then those of each call, of its rounds and of its output. */
#include "draw.h"
#include "rasppuce.h"
#include "svg.h"

#define PAIRS       RASPPUCE_LAST_ROUND /* of masks in a call: of its rounds, and of its output */
#define ROUNDS      (PAIRS - 1u)
#define CALL_BYTES  (RASPPUCE_ROUND_MASKS_BYTES * PAIRS)
#define MASK_BYTES  RASPPUCE_BLOCK_BYTES
#define BLOCKS_MOST ((RASPPUCE_MESSAGE_MOST + RASPPUCE_BLOCK_BYTES - 1u) / RASPPUCE_BLOCK_BYTES)

#if RASPPUCE_KEY_MASKS_BYTES != 4 * MASK_BYTES || RASPPUCE_ROUND_MASKS_BYTES != 2 * MASK_BYTES
#error "a key or a round no longer has two masks of a block each: the picture has to change"
#endif
#if RASPPUCE_CALLS(0) != 2 || RASPPUCE_CALLS(RASPPUCE_MESSAGE_MOST) != 2 * BLOCKS_MOST + 2
#error "a sealing no longer makes 2n + 2 calls: the picture has to change"
#endif

enum { LEFT = 40, RIGHT = 860, HIGH = 48, CALL_LEFT = 420 };

/* ---- the whole tape */

/* Where its parts begin in the picture: key masks, calls 1, dots, n, n+1, n+2, dots, 2n+2; and its end. */
static const int edges[] = { LEFT, 150, 250, 300, 422, 544, 666, 716, RIGHT };

/* One part: its offset above it, its size in it. */
static void draw_part(int part, int y, const char *offset, const char *name, unsigned size)
{
    text(edges[part], y - 8, START, SMALL, offset);
    box2(edges[part], y, edges[part + 1] - edges[part], HIGH, PLAIN, name, say("%u bytes", size));
}

/* The place at which a call begins, so many calls behind the first. */
static const char *call_place(const char *calls)
{
    return say("%u + %u%s", RASPPUCE_KEY_MASKS_BYTES, CALL_BYTES, calls);
}

/* All parts, but for the calls that are left out. */
static void draw_parts(int y)
{
    draw_part(0, y, "byte 0", "key masks", RASPPUCE_KEY_MASKS_BYTES);
    draw_part(1, y, say("%u", RASPPUCE_KEY_MASKS_BYTES), "call 1", CALL_BYTES);
    dots(edges[2], y, edges[3] - edges[2], HIGH);
    draw_part(3, y, call_place("(n-1)"), "call n", CALL_BYTES);
    draw_part(4, y, call_place("n"), "call n+1", CALL_BYTES);
    draw_part(5, y, call_place("(n+1)"), "call n+2", CALL_BYTES);
    dots(edges[6], y, edges[7] - edges[6], HIGH);
    draw_part(7, y, call_place("(2n+1)"), "call 2n+2", CALL_BYTES);
}

/* What some calls are for, above them. */
static void draw_purpose(int from, int to, int y, const char *what, const char *key)
{
    label(edges[from], y, edges[to] - edges[from], NOTE, what);
    label(edges[from], y + 16, edges[to] - edges[from], SMALL, key);
    bracket_below(edges[from] + 3, edges[to] - 3, y + 24, PLAIN);
}

/* What all calls are for. */
static void draw_purposes(int y)
{
    draw_purpose(1, 4, y, "make the key stream", "under KE");
    draw_purpose(4, 5, y, "makes subkeys", "under KM");
    draw_purpose(5, 8, y, "make the tag", "under KM");
}

/* ---- its parts, larger */

/* Leads from a box to the same bytes, larger, further down. */
static void draw_zoom(int x1, int x2, int from, int left, int right, int to, enum look look)
{
    dashes(x1, from, left, to, look);
    dashes(x2, from, right, to, look);
}

/* The masks of the keys. */
static void draw_key_masks(int y)
{
    static const char *masks[] = { "c of KE", "d of KE", "c of KM", "d of KM" };
    enum { WIDE = 82 };
    for (int i = 0; i < 4; i++) {
        text(LEFT + WIDE * i, y - 8, START, SMALL, say("%u", MASK_BYTES * (unsigned)i));
        box2(LEFT + WIDE * i, y, WIDE, HIGH, PLAIN, masks[i], say("%u bytes", MASK_BYTES));
    }
    text(LEFT, y + HIGH + 24, START, NOTE, "Once, into the shares of each key:");
    text(LEFT, y + HIGH + 44, START, NOTE, "share 0 gets c, 1 gets d, 2 gets c XOR d.");
}

/* Where a call's pairs begin in the picture: round 1, dots, r, dots, the last round, output; and its end. */
static const int pair_edges[] = { CALL_LEFT, 508, 552, 640, 684, 772, RIGHT };

/* One pair of masks. */
static void draw_pair(int pair, int y, enum look look, const char *name)
{
    box2(pair_edges[pair], y, pair_edges[pair + 1] - pair_edges[pair], HIGH, look, name,
         say("%u bytes", RASPPUCE_ROUND_MASKS_BYTES));
}

/* The pairs of any call, with one round's marked. */
static void draw_call(int y)
{
    label(CALL_LEFT, y - 34, 340, NOTE, "any call k");
    text(CALL_LEFT, y - 8, START, SMALL, call_place("(k-1)"));
    text(RIGHT, y - 8, END, SMALL, call_place("k"));
    draw_pair(0, y, PLAIN, "round 1");
    dots(pair_edges[1], y, pair_edges[2] - pair_edges[1], HIGH);
    draw_pair(2, y, MARKED, "round r");
    dots(pair_edges[3], y, pair_edges[4] - pair_edges[3], HIGH);
    draw_pair(4, y, PLAIN, say("round %u", ROUNDS));
    draw_pair(5, y, PLAIN, "output");
}

/* The two masks of the marked round, and where the output's go. */
static void draw_round_masks(int y)
{
    int x = CALL_LEFT, wide = (RIGHT - CALL_LEFT) / 2;
    const char *place = say("%s + %u(r-1)", call_place("(k-1)"), RASPPUCE_ROUND_MASKS_BYTES);
    text(x, y - 8, START, SMALL, place);
    text(x + wide, y - 8, START, SMALL, say("%s + %u", place, MASK_BYTES));
    box2(x, y, wide, HIGH, MARKED, "u", say("%u bytes", MASK_BYTES));
    box2(x + wide, y, wide, HIGH, MARKED, "v", say("%u bytes", MASK_BYTES));
    text(x, y + HIGH + 24, START, NOTE, "At the round's start, into the shares of the state:");
    text(x, y + HIGH + 44, START, NOTE, "share 0 gets u, 1 gets v, 2 gets u XOR v.");
    text(x, y + HIGH + 64, START, NOTE,
         say("After round %u, the output's pair (r = %u) in the same way.", ROUNDS, PAIRS));
}

/* ---- how long it is */

/* What a message of some length needs. */
static void draw_need(int y, const char *message, unsigned length)
{
    unsigned blocks = (length + RASPPUCE_BLOCK_BYTES - 1u) / RASPPUCE_BLOCK_BYTES;
    text(LEFT, y, START, NOTE, say("%s, %u bytes:", message, length));
    text(LEFT + 280, y, START, NOTE, say("n = %u, %u calls", blocks, RASPPUCE_CALLS(length)));
    text(LEFT + 580, y, END, NOTE, say("%u bytes of tape", RASPPUCE_TAPE_BYTES(length)));
}

/* What the shortest and the longest message need. */
static void draw_needs(int y)
{
    text(LEFT, y, START, NAME,
         say("A message of n blocks of %u bytes, of which the last may be shorter, needs %s bytes:",
             RASPPUCE_BLOCK_BYTES, call_place("(2n+2)")));
    draw_need(y + 24, "the empty message", 0);
    draw_need(y + 44, "the longest message", RASPPUCE_MESSAGE_MOST);
    text(LEFT, y + 64, START, NOTE, "The rest of a longer tape isn't read.");
}

/* The whole picture. */
void draw_tape(void)
{
    enum { WHOLE = 128, PARTS = 254, MASKS = 362 };
    begin_picture(900, 588, "The bytes of a tape",
                  say("A tape is %u bytes of key masks, then for each call %u pairs of %u bytes: two masks"
                      " u and v for each of %u rounds, and two for the output. Calls 1 to n make the key"
                      " stream, call n+1 the subkeys, calls n+2 to 2n+2 the tag. The longest message needs"
                      " %u bytes.",
                      RASPPUCE_KEY_MASKS_BYTES, PAIRS, RASPPUCE_ROUND_MASKS_BYTES, ROUNDS,
                      RASPPUCE_TAPE_BYTES(RASPPUCE_MESSAGE_MOST)));
    text(LEFT, 36, START, HEADING, "A tape");
    draw_purposes(WHOLE - 62);
    draw_parts(WHOLE);
    draw_zoom(edges[0], edges[1], WHOLE + HIGH, LEFT, LEFT + 328, PARTS - 24, PLAIN);
    draw_zoom(edges[4], edges[5], WHOLE + HIGH, CALL_LEFT, RIGHT, PARTS - 24, PLAIN);
    draw_key_masks(PARTS);
    draw_call(PARTS);
    draw_zoom(pair_edges[2], pair_edges[3], PARTS + HIGH, CALL_LEFT, RIGHT, MASKS - 24, MARKED);
    draw_round_masks(MASKS);
    draw_needs(506);
    end_picture();
}
