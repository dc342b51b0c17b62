/*
 * What the header gives besides the calls: sizes for the preprocessor, the words of each answer, and
 * a wipe. It is compiled as C and as C++. With IGNORED it leaves an answer unused, which has to be
 * a warning.
 */
#include "rasppuce.h"
#include "check.h"

#include <stdio.h>
#include <string.h>

#if RASPPUCE_NARROW != 0 || RASPPUCE_WIDE == 0
#error "0 says narrow, and another number wide"
#endif
#if RASPPUCE_SEQUENCE_BYTES(0) != 4 || RASPPUCE_SEQUENCE_BYTES(1) != 8 || RASPPUCE_SEQUENCE_BYTES(2) != 8
#error "a sequence number has 4 bytes if narrow, 8 if wide"
#endif
#if RASPPUCE_RECORD_ADDS(0) != 4 + 4 + 16 || RASPPUCE_RECORD_ADDS(1) != 4 + 8 + 16 || RASPPUCE_RECORD_ADDS(2) != 28
#error "what a record adds is its numbers and its tag"
#endif
#if RASPPUCE_RECORD_MOST != RASPPUCE_MESSAGE_MOST + RASPPUCE_RECORD_ADDS(RASPPUCE_WIDE)
#error "the longest record is a wide one of the longest message"
#endif
#if RASPPUCE_SEQUENCE_MOST(0) != 0xffffffff || RASPPUCE_SEQUENCE_MOST(1) != 0xffffffffffffffff
#error "the last number has all bits set, 32 if narrow and 64 if wide"
#endif
#if RASPPUCE_SENDER_BYTES != 1 + 4 + 8 + 96 + 1
#error "whether it is keyed, link number, last number, key shares, width"
#endif
#if RASPPUCE_RECEIVER_BYTES != 1 + 4 + 8 + 32 + 8 + 1
#error "whether it is keyed, link number, highest number, keys, window, width"
#endif
#if RASPPUCE_WINDOW != 64
#error "a bit of the window's 8 bytes for each number"
#endif
#if RASPPUCE_CALLS(0) != 2 || RASPPUCE_CALLS(1) != 4 || RASPPUCE_CALLS(16) != 4 || RASPPUCE_CALLS(17) != 6
#error "two calls for each block, and two"
#endif
#if RASPPUCE_TAPE_BYTES(0) != 2368 || RASPPUCE_TAPE_BYTES(RASPPUCE_MESSAGE_MOST) != RASPPUCE_TAPE_MOST
#error "1152 bytes for each call, and 64"
#endif
#if RASPPUCE_VALUES_BYTES != 8 + 4 + 1 + 4
#error "seconds, fraction, whether there is an offset, offset"
#endif
#if RASPPUCE_BODY_BYTES(0) != 12 || RASPPUCE_BODY_BYTES(1) != 16 || RASPPUCE_BODY_BYTES(2) != 16
#error "a word for each kind, and one more for an offset"
#endif
#if RASPPUCE_BODY_MOST > RASPPUCE_MESSAGE_MOST
#error "every body can be sealed"
#endif
#if RASPPUCE_FRACTION_END != 1 << 28 || RASPPUCE_SECONDS_END != RASPPUCE_FRACTION_END * RASPPUCE_FRACTION_END
#error "28 bits of a fraction, 56 of seconds"
#endif
#if RASPPUCE_OFFSET_LEAST != -12 * 60 || RASPPUCE_OFFSET_MOST != 14 * 60
#error "12 hours to the west, 14 to the east"
#endif
#if RASPPUCE_VERSION_MAJOR < 1
#error "no version"
#endif

/* The answers that there are: 0 to 10, 20 to 22 and 30 to 35. */
static int is_answer(uint32_t number)
{
    return number <= RASPPUCE_SEQUENCE || (RASPPUCE_NOT_KEYED <= number && number <= RASPPUCE_REPEATED)
        || (RASPPUCE_BODY_LENGTH <= number && number <= RASPPUCE_BELOW_WINDOW);
}

/* Every answer has words of its own, and no other number has any. */
static void meanings(void)
{
    const char *none = rasppuce_meaning(UINT32_MAX);
    for (uint32_t i = 0; i < 100; i++) {
        check((strcmp(rasppuce_meaning(i), none) != 0) == is_answer(i), "the answers have words, other numbers have none");
        for (uint32_t j = 0; is_answer(i) && j < i; j++)
            check(strcmp(rasppuce_meaning(i), rasppuce_meaning(j)) != 0, "two answers differ in words");
    }
}

/* The version as text is that of the numbers. */
static void versions(void)
{
    char text[32];
    snprintf(text, sizeof text, "%d.%d.%d", RASPPUCE_VERSION_MAJOR, RASPPUCE_VERSION_MINOR, RASPPUCE_VERSION_PATCH);
    check(strcmp(text, RASPPUCE_VERSION) == 0, "the version's text");
}

/* For any number that says a width, not only where the preprocessor sees it; each is looked at once. */
static void widths(void)
{
    static const uint32_t told[] = {0, 1, 2, 256, 0x80000000, UINT32_MAX};
    for (size_t i = 0; i < sizeof told / sizeof told[0]; i++) {
        const uint32_t *at = told + i;
        int is_wide = i > 0;
        check(RASPPUCE_SEQUENCE_BYTES(*at++) == (is_wide ? 8 : 4) && at == told + i + 1,
              "the bytes of a sequence number");
        at = told + i;
        check(RASPPUCE_RECORD_ADDS(*at++) == (is_wide ? 28 : 24) && at == told + i + 1, "what a record adds");
        at = told + i;
        uint64_t last = RASPPUCE_SEQUENCE_MOST(*at++);
        check(last == (is_wide ? UINT64_MAX : UINT32_MAX) && at == told + i + 1, "the last sequence number");
    }
}

/* What a mark's values stay within, in the types of the call that writes a body; sizes of arrays. */
static void limits(void)
{
    uint64_t seconds = RASPPUCE_SECONDS_END - 1;
    uint32_t fraction = RASPPUCE_FRACTION_END - 1;
    int32_t least = RASPPUCE_OFFSET_LEAST, most = RASPPUCE_OFFSET_MOST;
    static const uint8_t body[RASPPUCE_BODY_BYTES(1)] = {0}, values[RASPPUCE_VALUES_BYTES] = {0};
    static const uint8_t record[sizeof body + RASPPUCE_RECORD_ADDS(RASPPUCE_WIDE)] = {0};
    check(seconds >> 55 == 1 && fraction >> 27 == 1, "the last second and the last fraction");
    check(least < 0 && most > 0, "offsets to both sides");
    check(sizeof body == 16 && sizeof values == 17 && sizeof record == 44, "a body, its values and its record");
}

/* A wipe clears the bytes lent and no other. */
static void wipes(void)
{
    uint8_t bytes[10];
    memset(bytes, 7, sizeof bytes);
    rasppuce_wipe(bytes + 1, 8);
    for (int i = 0; i < 10; i++)
        check(bytes[i] == (i == 0 || i == 9 ? 7 : 0), "a wipe");
}

#ifdef IGNORED
void ignored(uint8_t *link, const uint8_t *keys);
void ignored(uint8_t *link, const uint8_t *keys)
{
    rasppuce_key_sender(link, RASPPUCE_SENDER_BYTES, 1, RASPPUCE_WIDE, keys, RASPPUCE_SENDER_KEY_BYTES);
}
#endif

int main(void)
{
    meanings();
    versions();
    widths();
    limits();
    wipes();
    return end_checks();
}
