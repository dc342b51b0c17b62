/* One round of a call on three shares, with lane 1 marked. */
#include "draw.h"
#include "rasppuce.h"
#include "svg.h"

#if RASPPUCE_LANE_BYTES != 3 * RASPPUCE_BLOCK_BYTES
#error "a lane is no longer three shares of a block each: the picture has to change"
#endif
#if RASPPUCE_LAST_LANE != 2
#error "there are no longer three lanes: the picture has to change"
#endif

enum { LANE = 1, SHARES = RASPPUCE_LAST_LANE + 1 };

/* Pairs of masks in a call: of its rounds, and of its output. */
#define PAIRS  RASPPUCE_LAST_ROUND
#define ROUNDS (PAIRS - 1u)

/* Across: three columns alike, each a stack of boxes with what goes in at its right. */
enum { LEFT = 24, PITCH = 288, WIDE = 144, SIDE = 164, SIDE_WIDE = 118, SIDE_SMALL = 94 };

/* Down: the top of each row of boxes, or the middle of each row of XOR signs. */
enum {
    ENTER = 56, FRAME = 116, MASKS = 152, MASKED_ROW = 182, SBOX = 308, MOVE = 382, CONSTANTS = 444,
    KEYS = 492, FRAME_END = 524, LEAVE = 544, HIGH = 44
};

/* The left edge of a share's boxes. */
static int left_of(int share)
{
    return LEFT + PITCH * share;
}

/* The middle of a share's boxes. */
static int middle_of(int share)
{
    return left_of(share) + WIDE / 2;
}

/* The share after one, counted modulo three. */
static int next(int share)
{
    return (share + 1) % SHARES;
}

/* Whether a state share just after the masks is in the marked lane. */
static int in_lane(int share)
{
    return share == next(LANE) || share == next(next(LANE));
}

/* How what is made of the marked lane looks. */
static enum look made(int share)
{
    return share == LANE ? OUTLINED : PLAIN;
}

/* ---- one share's column */

/* A share of the state, with its size. */
static void draw_share(int share, int y, enum look look, const char *kind)
{
    box2(left_of(share), y, WIDE, HIGH, look, say("%s share %d", kind, share),
         say("%u bytes", RASPPUCE_BLOCK_BYTES));
}

/* An XOR sign in the column, with what it adds in a box at the right. */
static void draw_xor(int share, int y, enum look sign, enum look side, const char *name, const char *note)
{
    int x = left_of(share) + SIDE;
    int high = note ? 42 : 28;
    if (note)
        box2(x, y - high / 2, SIDE_WIDE, high, side, name, note);
    else
        box1(x, y - high / 2, SIDE_SMALL, high, side, name);
    arrow(x, y, middle_of(share) + XOR_REACH, y, side);
    xor_sign(middle_of(share), y, sign);
}

/* A step of the column, downwards from one height to another. */
static void step(int share, int from, int to, enum look look)
{
    arrow(middle_of(share), from, middle_of(share), to, look);
}

/* From the shares on entering the round to those just after its masks. */
static void draw_masking(int share)
{
    static const char *masks[] = { "mask u", "mask v", "u XOR v" };
    draw_share(share, ENTER, PLAIN, "state");
    step(share, ENTER + HIGH, MASKS - XOR_REACH, PLAIN);
    draw_xor(share, MASKS, PLAIN, PLAIN, masks[share], 0);
    step(share, MASKS + XOR_REACH, MASKED_ROW, PLAIN);
    draw_share(share, MASKED_ROW, in_lane(share) ? MARKED : PLAIN, "masked");
}

/* The S-box's share, the bit move, and the constants in share 0 alone. */
static void draw_making(int share)
{
    int x = left_of(share);
    box2(x, SBOX, WIDE, HIGH + 4, made(share), say("S-box, share %d", share),
         say("of shares %d and %d", next(share), next(next(share))));
    step(share, SBOX + HIGH + 4, MOVE, made(share));
    box1(x, MOVE, WIDE, 32, made(share), "bit move");
    if (share == 0) {
        box1(x + SIDE, SBOX + 10, SIDE_SMALL, 28, PLAIN, "S-box's 1");
        arrow(x + SIDE, SBOX + 24, x + WIDE, SBOX + 24, PLAIN);
        step(share, MOVE + 32, CONSTANTS - XOR_REACH, PLAIN);
        draw_xor(share, CONSTANTS, PLAIN, PLAIN, "constants", 0);
        step(share, CONSTANTS + XOR_REACH, KEYS - XOR_REACH, PLAIN);
    } else {
        step(share, MOVE + 32, KEYS - XOR_REACH, made(share));
    }
}

/* The key's share, and the share that the next round begins with. */
static void draw_leaving(int share)
{
    enum look key = share == LANE ? MARKED : PLAIN;
    draw_xor(share, KEYS, made(share), key, say("key share %d", share), "rotated r times");
    step(share, KEYS + XOR_REACH, LEAVE, made(share));
    draw_share(share, LEAVE, made(share), "state");
}

/* ---- between the columns */

/* From a masked share to the S-box's share that works on it. */
static void draw_way(int from, int to)
{
    int side = from < to ? 1 : -1;
    int aside = from + side == to ? 24 : 48;
    arrow(middle_of(from) + side * aside, MASKED_ROW + HIGH, middle_of(to) - side * aside, SBOX,
          to == LANE ? MARKED : PLAIN);
}

/* All ways, the marked lane's last, so that nothing is drawn over them. */
static void draw_ways(void)
{
    for (int marked = 0; marked < 2; marked++)
        for (int to = 0; to < SHARES; to++)
            if ((to == LANE) == marked) {
                draw_way(next(to), to);
                draw_way(next(next(to)), to);
            }
}

/* ---- the words below */

/* A line of words, with a small box before it that shows a look. */
static void draw_key(int y, enum look look, const char *words)
{
    box(LEFT, y - 12, 18, 14, look);
    text(LEFT + 28, y, START, NOTE, words);
}

/* What comes before and after, and what is marked. */
static void draw_words(int y)
{
    text(LEFT, y, START, NOTE,
         "Before round 1, key share i goes into input share i. Each round rotates the key shares right"
         " by one.");
    text(LEFT, y + 20, START, NOTE,
         "The next round begins with its own u into share 0, v into share 1, u XOR v into share 2.");
    text(LEFT, y + 40, START, NOTE,
         say("After round %u pair %u goes into the three shares alike, and these are the call's output.",
             ROUNDS, PAIRS));
    draw_key(y + 72, MARKED,
             say("Lane %d. A probe at it sees %u bytes: masked shares %d and %d, and key share %d as the"
                 " round adds it.", LANE, RASPPUCE_LANE_BYTES, next(LANE), next(next(LANE)), LANE));
    text(LEFT + 28, y + 92, START, NOTE,
         "They fit every key alike: any other sealing of a message as long shows the same bytes with"
         " exactly one");
    text(LEFT + 28, y + 112, START, NOTE,
         say("tape that differs from this one at most in the round's %u mask bytes and the call"
             " key's mask %s, %u bytes.",
             RASPPUCE_ROUND_MASKS_BYTES, LANE == 1 ? "d" : "c", RASPPUCE_BLOCK_BYTES));
    draw_key(y + 136, OUTLINED, say("What the round makes of lane %d alone: state share %d.", LANE, LANE));
}

/* The whole picture. */
void draw_round(void)
{
    begin_picture(900, 768, "A round on three shares, with one lane marked",
                  say("Masks u, v and u XOR v go into shares 0, 1 and 2. Share i of the S-box is made of"
                      " masked shares i+1 and i+2; then come the bit move, the constants in share 0, and key"
                      " share i. Lane %d is masked shares %d and %d and key share %d: %u bytes.",
                      LANE, next(LANE), next(next(LANE)), LANE, RASPPUCE_LANE_BYTES));
    text(LEFT, 36, START, HEADING, "A round on three shares");
    box(8, FRAME, 884, FRAME_END - FRAME, PALE);
    text(LEFT + SIDE, FRAME - 8, START, NOTE, say("round r, 1 to %u", ROUNDS));
    for (int share = 0; share < SHARES; share++)
        draw_masking(share);
    draw_ways();
    for (int share = 0; share < SHARES; share++) {
        draw_making(share);
        draw_leaving(share);
    }
    draw_words(616);
    end_picture();
}
