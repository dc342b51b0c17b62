/*
 * The screen on probes: another key and another time mark show a probe the same bytes, under the
 * one tape that fits them. The exit status is 1 if anything is not as the text says.
 */
#include "link.h"
#include "screen.h"

#include <stdio.h>
#include <string.h>

static const time_mark other_mark = {946702799, 3 * QUARTER, -300,
                                     "1999-12-31 23:59:59.750 -05:00"};

/* Where the probe sits: this call is the last of those that make the tag, with the second key; the
   body, hidden, goes into it. */
enum { CALL = 4, ROUND = 17, LANE = 1 };

/* All calls, and the one for the subkeys: as many are before it as the body has blocks. */
enum { CALLS = RASPPUCE_CALLS(BODY_BYTES), SUBKEY_CALL = CALLS / 2 };

/* Where the key share stands in the bytes of a lane, behind two state shares. */
enum { KEY_SHARE_AT = 2 * BLOCK };

/* Where the masks that decide over this lane stand in the tape. */
enum {
    /* mask d of the second key: its share 1 gets it */
    D_AT = RASPPUCE_KEY_MASKS_BYTES - BLOCK,
    /* mask u of the round: state share 0 gets it */
    U_AT = RASPPUCE_KEY_MASKS_BYTES
         + RASPPUCE_ROUND_MASKS_BYTES * (RASPPUCE_LAST_ROUND * (CALL - 1) + ROUND - 1),
    /* mask v of the round: state share 1 gets it, and share 2 gets u XOR v */
    V_AT = U_AT + BLOCK
};

/* One sealing: its link, time mark with body, and tape. */
typedef struct {
    both_ends ends;
    const time_mark *mark;
    uint8_t body[BODY_BYTES];
    uint8_t tape[TAPE_BYTES];
} sealing;

/* The second key of a sealing. */
static const uint8_t *key_of(const sealing *s)
{
    return s->ends.keys + BLOCK;
}

/* ---- what the sender does */

/* Shows one lane of a sealing. */
static uint32_t report(const sealing *s, uint32_t call, uint32_t round, uint32_t lane,
                       uint8_t seen[RASPPUCE_LANE_BYTES])
{
    return rasppuce_report(s->ends.sender, sizeof s->ends.sender, s->body, sizeof s->body,
                           s->tape, sizeof s->tape, call, round, lane, seen, RASPPUCE_LANE_BYTES);
}

/* Joins the shares that stand at one place of the three lanes; says whether all were shown. */
static int join(const sealing *s, uint32_t call, uint32_t round, int at, uint8_t joined[BLOCK])
{
    uint8_t seen[RASPPUCE_LANE_BYTES] = {0};
    memset(joined, 0, BLOCK);
    for (uint32_t lane = 0; lane <= RASPPUCE_LAST_LANE; lane++) {
        if (report(s, call, round, lane, seen) != RASPPUCE_OK)
            return 0;
        add(joined, seen + at);
    }
    return 1;
}

/* A round's key is the key rotated right by one bit for each round so far: this rotates back. */
static void rotate_back(uint8_t *block)
{
    for (int turn = 0; turn < ROUND; turn++) {
        uint8_t top = block[0] >> 7;
        for (int i = 0; i < BLOCK; i++)
            block[i] = (uint8_t)(block[i] << 1 | (i + 1 < BLOCK ? block[i + 1] >> 7 : top));
    }
}

/* Whether key shares give the key. */
static int key_joins(const sealing *s)
{
    uint8_t joined[BLOCK];
    if (!join(s, CALL, ROUND, KEY_SHARE_AT, joined))
        return 0;
    rotate_back(joined);
    return memcmp(joined, key_of(s), BLOCK) == 0;
}

/* Whether state shares give the state: the subkey call begins with zeros and adds the key. */
static int state_joins(const sealing *s)
{
    uint8_t joined[BLOCK];
    return join(s, SUBKEY_CALL, 1, 0, joined) && memcmp(joined, key_of(s), BLOCK) == 0;
}

/* Whether there are just so many calls, rounds, with the output behind the last, and lanes. */
static int lanes_right(const sealing *s)
{
    uint8_t seen[RASPPUCE_LANE_BYTES];
    return report(s, CALLS, RASPPUCE_LAST_ROUND, RASPPUCE_LAST_LANE, seen) == RASPPUCE_OK
        && report(s, CALLS + 1, ROUND, LANE, seen) == RASPPUCE_CALL
        && report(s, CALL, RASPPUCE_LAST_ROUND + 1, LANE, seen) == RASPPUCE_ROUND
        && report(s, CALL, ROUND, RASPPUCE_LAST_LANE + 1, seen) == RASPPUCE_LANE;
}

/* Seals on a copy of the link; says whether all the tape was read and its receiver has the time. */
static int sealed_right(const sealing *s, uint8_t record[RECORD_BYTES])
{
    both_ends ends = s->ends;
    uint8_t tag_shares[RASPPUCE_SHARES_BYTES] = {0}, opened[BODY_BYTES] = {0};
    char time[TIME_MOST] = "";
    return seal_body(&ends, s->body, s->tape, record, tag_shares) == RASPPUCE_OK
        && read_number(tag_shares + SHARES * BLOCK) == TAPE_BYTES
        && open_body(&ends, record, RECORD_BYTES, opened) == RASPPUCE_OK
        && memcmp(opened, s->body, sizeof opened) == 0
        && read_time(opened, time) == RASPPUCE_OK && strcmp(time, s->mark->time) == 0;
}

/* Whether another tape gives the same record, with other shares on the way. */
static int tape_right(const sealing *s)
{
    sealing again = *s;
    uint8_t record[RECORD_BYTES] = {0}, same[RECORD_BYTES] = {0};
    uint8_t seen[RASPPUCE_LANE_BYTES] = {0}, fresh[RASPPUCE_LANE_BYTES] = {0};
    fill(again.tape, sizeof again.tape);
    return sealed_right(s, record) && sealed_right(&again, same)
        && memcmp(record, same, sizeof record) == 0
        && report(s, CALL, ROUND, LANE, seen) == RASPPUCE_OK
        && report(&again, CALL, ROUND, LANE, fresh) == RASPPUCE_OK
        && memcmp(seen, fresh, sizeof seen) != 0;
}

/* The words, each with what it stands for. */
static void show_words(const sealing *s)
{
    printf("1 The cipher hides text with a key. Key and state (what it is at work on) exist\n");
    end_line(printf("  only in 3 shares: parts that look random; all 3 added bit by bit give it."),
             key_joins(s) && state_joins(s));
    printf("2 A call is one use of the cipher; sealing our time mark takes %d. A call has\n"
           "  %u rounds (steps), a round has %u lanes. A lane makes one new share from %u\n",
           CALLS, RASPPUCE_LAST_ROUND - 1, RASPPUCE_LAST_LANE + 1, RASPPUCE_LANE_BYTES);
    end_line(printf("  bytes: 2 shares of the state and 1 of the key, never all 3 of one."),
             lanes_right(s));
    printf("3 The tape is %d random bytes, new for each sealing. A mask is %d of these,\n",
           TAPE_BYTES, BLOCK);
    end_line(printf("  added to 2 of 3 shares: they look new, what all 3 give stays the same."),
             tape_right(s));
}

/* ---- the one tape */

/* Changes the three masks in the tape of `s` so that it shows the wanted lane, if it can. */
static int solve(sealing *s, const uint8_t wanted[RASPPUCE_LANE_BYTES])
{
    uint8_t seen[RASPPUCE_LANE_BYTES] = {0};

    /* The key share is off by some bits: mask d takes just these. */
    if (report(s, CALL, ROUND, LANE, seen) != RASPPUCE_OK)
        return 0;
    add(seen + KEY_SHARE_AT, wanted + KEY_SHARE_AT);
    rotate_back(seen + KEY_SHARE_AT);
    add(s->tape + D_AT, seen + KEY_SHARE_AT);

    /* With that, state shares 2 and 0 are off by some bits: masks u and v take these. */
    if (report(s, CALL, ROUND, LANE, seen) != RASPPUCE_OK)
        return 0;
    add(seen, wanted);
    add(seen + BLOCK, wanted + BLOCK);
    add(s->tape + U_AT, seen + BLOCK);
    add(s->tape + V_AT, seen);
    add(s->tape + V_AT, seen + BLOCK);
    return 1;
}

/* Whether two tapes are the same but for the three masks. */
static int alike(const uint8_t tape[TAPE_BYTES], const uint8_t other[TAPE_BYTES])
{
    uint8_t back[TAPE_BYTES];
    memcpy(back, other, sizeof back);
    memcpy(back + D_AT, tape + D_AT, BLOCK);
    memcpy(back + U_AT, tape + U_AT, RASPPUCE_ROUND_MASKS_BYTES);
    return memcmp(back, tape, sizeof back) == 0;
}

/* Other keys and another time mark, on our tape with three masks changed: a sound sealing too. */
static int fit(const sealing *ours, sealing *theirs, const uint8_t seen[RASPPUCE_LANE_BYTES])
{
    uint8_t record[RECORD_BYTES] = {0}, unfit[RASPPUCE_LANE_BYTES] = {0};
    memcpy(theirs->tape, ours->tape, sizeof theirs->tape);
    return key_both(&theirs->ends, LINK, RASPPUCE_NARROW)
        && memcmp(key_of(ours), key_of(theirs), BLOCK) != 0
        && report(theirs, CALL, ROUND, LANE, unfit) == RASPPUCE_OK
        && memcmp(seen, unfit, sizeof unfit) != 0
        && solve(theirs, seen)
        && alike(ours->tape, theirs->tape)
        && sealed_right(theirs, record);
}

/* A block of each of the two sealings. */
static void print_pair(const char *name, const uint8_t *left, const uint8_t *right)
{
    printf("%-7s", name);
    print_hex(left, BLOCK);
    printf("  ");
    print_hex(right, BLOCK);
    printf("\n");
}

/* Two sealings: their keys, their time marks and the masks in which their tapes differ. */
static void show_masks(const sealing *ours, const sealing *theirs, int fits)
{
    printf("4 A probe sits at call %d, round %d, lane %d. Left: our sealing. Right: one with\n"
           "  another key and time, and 3 other masks on tape: d for key shares, u and v\n",
           CALL, ROUND, LANE);
    end_line(printf("  for this round's state shares. It is sound too: its receiver opens it."),
             fits);
    print_pair("key", key_of(ours), key_of(theirs));
    printf("time   %-37s%s\n", ours->mark->time, theirs->mark->time);
    print_pair("mask d", ours->tape + D_AT, theirs->tape + D_AT);
    print_pair("mask u", ours->tape + U_AT, theirs->tape + U_AT);
    print_pair("mask v", ours->tape + V_AT, theirs->tape + V_AT);
}

/* What the probe sees of both, and what follows if that is the same. */
static void show_seen(const uint8_t left[RASPPUCE_LANE_BYTES],
                      const uint8_t right[RASPPUCE_LANE_BYTES], int fits)
{
    int same = fits && memcmp(left, right, RASPPUCE_LANE_BYTES) == 0;
    end_line(printf("5 It sees %u bytes, 2 state shares and 1 key share: the same on both sides",
                    RASPPUCE_LANE_BYTES), same);
    print_pair("seen", left, right);
    print_pair("seen", left + BLOCK, right + BLOCK);
    print_pair("seen", left + KEY_SHARE_AT, right + KEY_SHARE_AT);
    if (same)
        printf("6 No. Each key and time has just one such tape that shows these bytes (proved).\n"
               "  Tapes are random, all equally likely: the bytes fit each key and time alike.\n");
}

int main(void)
{
    sealing ours = {.mark = &our_mark}, theirs = {.mark = &other_mark};
    uint8_t left[RASPPUCE_LANE_BYTES] = {0}, right[RASPPUCE_LANE_BYTES] = {0};
    printf("Could a probe (a device that reads bytes inside the sender) find out its key?\n");
    expect(key_both(&ours.ends, LINK, RASPPUCE_NARROW), "the keys were refused.");
    expect(write_mark(ours.mark, ours.body) == RASPPUCE_OK
           && write_mark(theirs.mark, theirs.body) == RASPPUCE_OK, "the time marks were refused.");
    fill(ours.tape, sizeof ours.tape);
    int fits = report(&ours, CALL, ROUND, LANE, left) == RASPPUCE_OK
            && fit(&ours, &theirs, left)
            && report(&theirs, CALL, ROUND, LANE, right) == RASPPUCE_OK;
    show_words(&ours);
    show_masks(&ours, &theirs, fits);
    show_seen(left, right, fits);
    return end_screen();
}
