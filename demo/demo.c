/*
 * The first screen: a time mark is sealed, opened and read, two more arrive in the wrong order, and
 * three wrong records are refused, one of them from a wide link. The exit status is 1 if anything is
 * not as the text says.
 */
#include "link.h"
#include "screen.h"

#include <stdio.h>
#include <string.h>

/* The records behind the first one, and their time marks, each a second later. */
enum { SECOND, THIRD, FOURTH, LATER };

static const time_mark later_marks[LATER] = {
    {1772456710, QUARTER, 60, "2026-03-02 14:05:10.250 +01:00"},
    {1772456711, QUARTER, 60, "2026-03-02 14:05:11.250 +01:00"},
    {1772456712, QUARTER, 60, "2026-03-02 14:05:12.250 +01:00"}};

/* Another link, which is wide, and a number that no narrow one has. */
enum { OTHER_LINK = 8 };
static const uint64_t other_sequence = 4294967296;

/* Where the fields of a record begin; the link number stands at its start. */
enum {
    NUMBER_AT = RASPPUCE_NUMBER_BYTES,
    TEXT_AT = NUMBER_AT + RASPPUCE_SEQUENCE_BYTES(RASPPUCE_NARROW),
    WIDE_TEXT_AT = NUMBER_AT + RASPPUCE_SEQUENCE_BYTES(RASPPUCE_WIDE),
    TAG_AT = TEXT_AT + BODY_BYTES
};

/* ---- the cipher */

static const uint8_t key[BLOCK] = {0x59, 0x20, 0xef, 0xfb, 0x52, 0xbc, 0x61, 0xe3,
                                   0x3a, 0x98, 0x42, 0x53, 0x21, 0xe7, 0x69, 0x15};
static const uint8_t block[BLOCK] = {0xe6, 0x51, 0x75, 0x31, 0xab, 0xf6, 0x3f, 0x3d,
                                     0x78, 0x05, 0xe1, 0x26, 0x94, 0x3a, 0x08, 0x1c};
static const uint8_t published[BLOCK] = {0xfc, 0x7e, 0x61, 0xfe, 0xe3, 0xd5, 0x87, 0x30,
                                         0x8c, 0xa7, 0xbc, 0x59, 0x4e, 0xbf, 0x32, 0x44};

/* Whether the engine by table gives the published block, and the first one back. */
static int table_right(void)
{
    uint8_t there[BLOCK] = {0}, back[BLOCK] = {0};
    return rasppuce_encrypt_table(key, BLOCK, block, BLOCK, there, BLOCK) == RASPPUCE_OK
        && rasppuce_decrypt_table(key, BLOCK, there, BLOCK, back, BLOCK) == RASPPUCE_OK
        && memcmp(there, published, BLOCK) == 0 && memcmp(back, block, BLOCK) == 0;
}

/* Whether the engine by packed words does so too; `there` gets what it makes of the block. */
static int packed_right(uint8_t there[BLOCK])
{
    uint8_t back[BLOCK] = {0};
    return rasppuce_encrypt_packed(key, BLOCK, block, BLOCK, there, BLOCK) == RASPPUCE_OK
        && rasppuce_decrypt_packed(key, BLOCK, there, BLOCK, back, BLOCK) == RASPPUCE_OK
        && memcmp(there, published, BLOCK) == 0 && memcmp(back, block, BLOCK) == 0;
}

/* A published example of the cipher, by both engines. */
static void show_cipher(void)
{
    uint8_t there[BLOCK] = {0};
    int right = packed_right(there) && table_right();
    printf("1 The cipher hides 16 bytes with a secret key. Both engines (programs for it)\n");
    int used = printf("  give the published result, in hex: ");
    end_line(used + print_hex(there, BLOCK), right);
}

/* ---- keys */

/* Where the keys begin in a link: behind a byte that says that it is keyed, and two numbers. */
enum { KEYS_AT = 1 + RASPPUCE_NUMBER_BYTES + RASPPUCE_SEQUENCE_BYTES(RASPPUCE_WIDE) };

/* Both ends of the link get their keys. */
static void show_keys(both_ends *ends)
{
    int keyed = key_both(ends, LINK, RASPPUCE_NARROW);
    end_line(printf("2 Link %d: its receiver gets two keys, its sender 3 shares (parts) of each",
                    LINK),
             keyed && memcmp(ends->sender + KEYS_AT, ends->shares, sizeof ends->shares) == 0
                   && memcmp(ends->receiver + KEYS_AT, ends->keys, sizeof ends->keys) == 0);
}

/* ---- sealing */

/* What our mark's body has to be: 28 bits of a number in each word, behind the word's kind. */
static const uint8_t our_body[BODY_BYTES] = {0x10, 0x00, 0x00, 0x06, 0x29, 0xa5, 0x8b, 0x05,
                                             0x34, 0x00, 0x00, 0x00, 0x40, 0x00, 0x00, 0x3c};

/* Writes a mark's body and seals it by shares, with a new tape; says whether both were done. */
static int seal_next(both_ends *ends, const time_mark *mark, uint8_t body[BODY_BYTES],
                     uint8_t record[RECORD_BYTES])
{
    uint8_t tape[TAPE_BYTES], tag_shares[RASPPUCE_SHARES_BYTES];
    fill(tape, sizeof tape);
    return write_mark(mark, body) == RASPPUCE_OK
        && seal_body(ends, body, tape, record, tag_shares) == RASPPUCE_OK;
}

/* Whether a record is number 1 of the link, with every word of the body hidden. */
static int fields_right(const uint8_t record[RECORD_BYTES], const uint8_t body[BODY_BYTES])
{
    for (int i = 0; i < BODY_BYTES; i += 4)
        if (memcmp(record + TEXT_AT + i, body + i, 4) == 0)
            return 0;
    return read_number(record) == LINK && read_number(record + NUMBER_AT) == 1;
}

/* The column in which bytes are explained. */
enum { WHAT_AT = 47 };

/* At most 16 bytes in a line, with their name and what they are. */
static void print_field(const char *name, const uint8_t *bytes, size_t len, const char *what)
{
    int used = printf("  %-8s", name);
    used += print_hex(bytes, len);
    printf("%*s%s\n", WHAT_AT - used, "", what);
}

/* The sender writes the body of our mark and seals it, by shares and plainly. */
static void show_sealing(both_ends *ends, uint8_t record[RECORD_BYTES])
{
    uint8_t body[BODY_BYTES] = {0}, plain[RECORD_BYTES] = {0};
    int sealed = seal_next(ends, &our_mark, body, record)
              && rasppuce_seal_plain(ends->keys, sizeof ends->keys, LINK, RASPPUCE_NARROW, 1,
                                     body, sizeof body, plain, sizeof plain) == RASPPUCE_OK;
    printf("3 The mark's body is 4 words: seconds since 1970 (2 words), fraction, offset.\n");
    print_field("body", body, sizeof body, "\"" OUR_TIME "\"");
    end_line(printf("  Sealing it by shares or plainly (by whole keys) gives one record to send:"),
             sealed && memcmp(body, our_body, sizeof body) == 0 && fields_right(record, body)
                    && memcmp(record, plain, sizeof plain) == 0);
    print_field("numbers", record, TEXT_AT, "link; sequence number 1, 2, ...");
    print_field("text", record + TEXT_AT, BODY_BYTES, "the body, hidden");
    print_field("tag", record + TAG_AT, RASPPUCE_TAG_BYTES, "check value, made with a key");
}

/* ---- opening */

/* The receiver opens a record and has to read this time in its body. */
static void show_opening(both_ends *ends, const uint8_t record[RECORD_BYTES], const char *what,
                         const char *expected)
{
    uint8_t body[BODY_BYTES] = {0};
    char time[TIME_MOST] = "";
    int read = open_body(ends, record, RECORD_BYTES, body) == RASPPUCE_OK
            && read_time(body, time) == RASPPUCE_OK;
    end_line(printf("%s \"%s\"", what, time), read && strcmp(time, expected) == 0);
}

/* The receiver has to refuse a record. Says whether it stays as it was then and gives nothing. */
static int show_refusal(both_ends *ends, const uint8_t *record, size_t len, const char *what,
                        uint32_t expected, const char *why)
{
    static const uint8_t nothing[BODY_BYTES];
    uint8_t opened[BODY_BYTES] = {0};
    uint8_t before[RASPPUCE_RECEIVER_BYTES];
    memcpy(before, ends->receiver, sizeof before);
    uint32_t answer = open_body(ends, record, len, opened);
    end_refused(printf("%s", what), answer, expected, why);
    return answer == expected && memcmp(before, ends->receiver, sizeof before) == 0
        && memcmp(opened, nothing, sizeof nothing) == 0;
}

/* Seals our mark plainly for the other link. */
static uint32_t seal_other(const both_ends *ends, uint32_t wide, const uint8_t body[BODY_BYTES],
                           uint8_t record[WIDE_RECORD_BYTES])
{
    return rasppuce_seal_plain(ends->keys, sizeof ends->keys, OTHER_LINK, wide, other_sequence,
                               body, BODY_BYTES, record, WIDE_RECORD_BYTES);
}

/* The same; says whether that link's own receiver opens it, and whether it has to be a wide one. */
static int other_right(uint8_t record[WIDE_RECORD_BYTES])
{
    both_ends ends = {0};
    uint8_t body[BODY_BYTES] = {0}, opened[BODY_BYTES] = {0};
    return key_both(&ends, OTHER_LINK, RASPPUCE_WIDE) && write_mark(&our_mark, body) == RASPPUCE_OK
        && seal_other(&ends, RASPPUCE_NARROW, body, record) == RASPPUCE_SEQUENCE
        && seal_other(&ends, RASPPUCE_WIDE, body, record) == RASPPUCE_OK
        && open_body(&ends, record, WIDE_RECORD_BYTES, opened) == RASPPUCE_OK
        && memcmp(opened, body, sizeof body) == 0;
}

/* The numbers of its record: the sequence number has 8 bytes. */
static void show_wide(const uint8_t record[WIDE_RECORD_BYTES], int right)
{
    uint64_t sequence = (uint64_t)read_number(record + NUMBER_AT) << 32
                      | read_number(record + NUMBER_AT + 4);
    int used = printf("  numbers ") + print_hex(record, WIDE_TEXT_AT);
    used += printf("%*slink; sequence number", WHAT_AT - used, "");
    end_line(used, right && read_number(record) == OTHER_LINK && sequence == other_sequence);
}

/* The sender seals the records behind the first one. */
static void seal_later(both_ends *ends, uint8_t later[LATER][RECORD_BYTES])
{
    uint8_t body[BODY_BYTES];
    for (int i = SECOND; i < LATER; i++)
        expect(seal_next(ends, &later_marks[i], body, later[i]), "a later record was not sealed.");
}

/* Records 3 and 2 arrive in this order; the receiver has to open both. */
static void show_order(both_ends *ends, uint8_t later[LATER][RECORD_BYTES])
{
    show_opening(ends, later[THIRD], "5 Record 3 arrives before 2 (two cables):",
                 later_marks[THIRD].time);
    show_opening(ends, later[SECOND], "  Record 2 arrives late and opens too:   ",
                 later_marks[SECOND].time);
}

/* Three records that the receiver has to refuse, and record 4, which it has to open. */
static void show_refusals(both_ends *ends, uint8_t later[LATER][RECORD_BYTES])
{
    uint8_t damaged[RECORD_BYTES], other[WIDE_RECORD_BYTES] = {0};
    int right = other_right(other);
    memcpy(damaged, later[FOURTH], sizeof damaged);
    damaged[TEXT_AT] ^= 1;

    int kept = show_refusal(ends, later[SECOND], RECORD_BYTES, "6 Record 2 again", RASPPUCE_REPEATED,
                            "an old record, sent once more (a replay), must not count again.");
    kept &= show_refusal(ends, damaged, RECORD_BYTES, "7 Record 4, damaged", RASPPUCE_TAG,
                         "one bit of its text was flipped on the way; the tag shows it.");
    kept &= show_refusal(ends, other, WIDE_RECORD_BYTES, "8 Record 4294967296 of link 8",
                         RASPPUCE_OTHER_LINK,
                         "only link 8 opens it, which is wide: numbers of 8 bytes, not 4.");
    show_wide(other, right);
    expect(kept, "link 7 gave something out, or did not stay as it was.");
    show_opening(ends, later[FOURTH], "9 Link 7 stayed as it was; record 4 opens:",
                 later_marks[FOURTH].time);
}

int main(void)
{
    both_ends ends = {0};
    uint8_t record[RECORD_BYTES] = {0}, later[LATER][RECORD_BYTES] = {{0}};
    printf("Rasppuce seals time marks: they travel hidden, and damage to them shows.\n");
    show_cipher();
    show_keys(&ends);
    show_sealing(&ends, record);
    show_opening(&ends, record, "4 The receiver opens it and reads", our_mark.time);
    seal_later(&ends, later);
    show_order(&ends, later);
    show_refusals(&ends, later);
    return end_screen();
}
