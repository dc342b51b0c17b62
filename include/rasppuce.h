/*
 * Rasppuce: seals time marks on a sending link and opens them on a receiving one.
 *
 * A message of at most 256 bytes becomes a record: link number, sequence number, ciphertext, tag.
 * A link is narrow or wide: its sequence numbers have 32 bits, in 4 bytes of a record, or 64, in 8.
 * The cipher is BAKSHEESH, the modes are CTR (NIST SP 800-38A) and CMAC (NIST SP 800-38B).
 * rasppuce_seal works on three XOR shares of each key, masked by a tape of random bytes;
 * rasppuce_seal_plain works on the keys themselves and gives the same records.
 *
 * For every call:
 *
 * - A slice is a pointer and a length in bytes. The pointer may be NULL only where the length is
 *   0; otherwise that many bytes have to stand there, at any address: nothing has to be aligned.
 * - A slice that a call may write must not overlap any other slice of the same call. Those it
 *   only reads are const, and may overlap each other.
 * - It returns RASPPUCE_OK or the number of one refusal: of those listed with the call, the first
 *   that applies, in the order listed. Nothing else makes it refuse. rasppuce_meaning has the
 *   words for a log.
 * - A refusal leaves every byte that was lent as it was.
 * - Success writes what is said here and leaves the rest of a longer slice untouched.
 * - It keeps nothing: what lasts from call to call is in the bytes of the link. Threads may call
 *   at once on different links, as long as none writes to bytes that are lent to another then.
 * - Multi-byte numbers in links, records, counts, bodies and values are big-endian.
 *
 * What the host has to see to:
 *
 * - Power loss. Sealing advances the sending link. Store the advanced link before the record
 *   leaves, and never put an older copy back, from a backup or a snapshot either: the next record
 *   would have a number that was used, and under one number the key stream is the same: two such
 *   ciphertexts XOR to what their messages XOR to. If a stored link may be old, use new keys.
 *   An older copy of a receiving link lets the records since then in once more.
 * - Widths. Keying fixes a link's width, and both ends need the same one. Another width needs fresh
 *   keys: under one key, a narrow and a wide record of the same numbers have the same counter blocks
 *   and so the same key stream. Keys that seal at one width must not seal at the other, by shares
 *   or plainly. rasppuce_open says what a receiver of the wrong width answers.
 * - Tapes. Fill one for each sealing with uniform bytes that nobody else knows, from a cryptographic
 *   generator that the system seeds: getrandom, which may give fewer bytes than asked, or the like;
 *   not from rand, a clock or a counter. Never use a tape twice. The record is right under any tape,
 *   but under another one nothing is claimed of what a probe at the sender tells of keys and message.
 *   Keys come from such a generator too.
 * - Secrets in memory. Links, keys, their shares and tapes are secret; rasppuce_wipe clears them: keys
 *   and their shares once the link is keyed, a tape and its tag shares once sealing has answered,
 *   whatever it says. Every call that uses keys also leaves bytes of keys or key shares on the stack
 *   below its caller, and some calls leave bytes of the key stream, the message or the body
 *   (bench/sizes shows which). Where somebody could read them there, clear that too, from the function
 *   that made the call:
 *
 *       __attribute__((noinline, no_stack_protector)) static void wipe_stack(void)
 *       {
 *           uint8_t room[RASPPUCE_STACK_MOST];
 *           rasppuce_wipe(room, sizeof room);
 *       }
 *
 * - Time. Nothing is claimed on how long a call takes, whatever its bytes are. The table engine,
 *   rasppuce_encrypt_table and rasppuce_decrypt_table, looks up tables by bytes that depend on key
 *   and block, so that a cache can tell of them; no other call has a table of that kind.
 */
#ifndef RASPPUCE_H
#define RASPPUCE_H

#include <stddef.h>
#include <stdint.h>

#ifdef __cplusplus
extern "C" {
#endif

/* ---- version of this header and of the archive that comes with it: the first number goes up where a
 * call's form, a link's bytes or an answer's meaning change, the second where something is added */

#define RASPPUCE_VERSION_MAJOR 5
#define RASPPUCE_VERSION_MINOR 0
#define RASPPUCE_VERSION_PATCH 0
#define RASPPUCE_VERSION       "5.0.0"

/* ---- answers: success, refusals from the input (1 to 10), from the link's state (20 to 22), of
 * bodies (30 to 32), of a report's round and lane (33 and 34), of a number out of the window (35) */

#define RASPPUCE_OK            0u /* done */
#define RASPPUCE_KEYS          1u /* key material isn't 96 bytes (sender) or 32; in keying, also
                                     a link slice of a wrong length */
#define RASPPUCE_MESSAGE       2u /* message over 256 bytes */
#define RASPPUCE_TAPE          3u /* tape under the need */
#define RASPPUCE_OUTPUT        4u /* output shorter than the result */
#define RASPPUCE_BLOCK         5u /* a block call's key, input or output isn't 16 bytes */
#define RASPPUCE_CALL          6u /* the call to be shown isn't in 1 to 2n+2 */
#define RASPPUCE_RECORD        7u /* record not 24 to 280 bytes on a narrow link, 28 to 284 on a
                                     wide one */
#define RASPPUCE_OTHER_LINK    8u /* the record has another link number */
#define RASPPUCE_TAG           9u /* wrong tag */
#define RASPPUCE_SEQUENCE     10u /* in plain sealing: sequence number 0, or told narrow and one
                                     above 4294967295 */
#define RASPPUCE_NOT_KEYED    20u /* the link isn't keyed, its slice has a wrong length, its width
                                     is over 1, or it is narrow and its last or highest number
                                     above 4294967295 */
#define RASPPUCE_NUMBERS_USED 21u /* the sender's last number is 4294967295, on a wide link
                                     18446744073709551615, so none is left */
#define RASPPUCE_REPEATED     22u /* the record's number is in the window and was accepted before */
#define RASPPUCE_BODY_LENGTH  30u /* body not 4 to 256 bytes in steps of 4 */
#define RASPPUCE_BODY_WORD    31u /* read: a word of kind 0, a kind 1 to 4 for the second time, or an
                                     offset out of its range; written: a value out of its range */
#define RASPPUCE_BODY_MISSING 32u /* the body has no word of kind 1, 2 or 3 */
#define RASPPUCE_ROUND        33u /* the round to be shown isn't in 1 to 36 */
#define RASPPUCE_LANE         34u /* the lane to be shown isn't in 0 to 2 */
#define RASPPUCE_BELOW_WINDOW 35u /* the record's number is 0, or 64 or more below the highest
                                     accepted one */

/* ---- widths, as keying and plain sealing are told them: 0 is narrow, any other number wide */

#define RASPPUCE_NARROW 0u
#define RASPPUCE_WIDE   1u

/* ---- sizes in bytes; they can stand in #if */

#define RASPPUCE_BLOCK_BYTES         16u  /* a block, and a key of the cipher */
#define RASPPUCE_SENDER_BYTES        110u /* a sending link, of either width */
#define RASPPUCE_RECEIVER_BYTES      54u  /* a receiving link, of either width */
#define RASPPUCE_SENDER_KEY_BYTES    96u  /* three shares of KE, then three of KM */
#define RASPPUCE_RECEIVER_KEY_BYTES  32u  /* KE, then KM; for plain sealing too */
#define RASPPUCE_MESSAGE_MOST        256u /* the longest message */
#define RASPPUCE_NUMBER_BYTES        4u   /* a link number, at a record's start */
#define RASPPUCE_TAG_BYTES           16u  /* a record's tag, at its end */
#define RASPPUCE_RECORD_MOST         284u /* the longest record of either width */
#define RASPPUCE_SHARES_BYTES        52u  /* three tag shares and the tape count */
#define RASPPUCE_LANE_BYTES          48u  /* one reported lane */
#define RASPPUCE_BODY_MOST           256u /* the longest body that can be read */
#define RASPPUCE_VALUES_BYTES        17u  /* the values of a mark */
#define RASPPUCE_KEY_MASKS_BYTES     64u  /* of a tape: two masks for each key, at its start */
#define RASPPUCE_ROUND_MASKS_BYTES   32u  /* of a tape: two masks, for a round of a call or its output */
#define RASPPUCE_TAPE_MOST           39232u /* the tape for the longest message */
#define RASPPUCE_STACK_MOST          5120u  /* the stack of any call, and nearly a quarter more */

/* For a width w, as it is told: the bytes of a sequence number, behind a record's link number; what a
 * record has more than its message, 24 or 28 bytes; the last sequence number. */
#define RASPPUCE_SEQUENCE_BYTES(w) ((w) != 0 ? 8u : 4u)
#define RASPPUCE_RECORD_ADDS(w) \
    (RASPPUCE_NUMBER_BYTES + RASPPUCE_SEQUENCE_BYTES(w) + RASPPUCE_TAG_BYTES)
#define RASPPUCE_SEQUENCE_MOST(w) ((w) != 0 ? 18446744073709551615u : 4294967295u)

/* How many numbers a receiver's window covers: the highest accepted one and those right below it. */
#define RASPPUCE_WINDOW 64u

/* The last round that a report can show, and the last lane; rounds count from 1, lanes from 0. The
 * cipher has one round less: the last shows the call's output. */
#define RASPPUCE_LAST_ROUND 36u
#define RASPPUCE_LAST_LANE  2u

/* The first and the last local offset of a mark, in minutes; what its seconds and its fraction of a
 * second, in 2^-28 seconds, stay below. */
#define RASPPUCE_OFFSET_LEAST (-720)
#define RASPPUCE_OFFSET_MOST  840
#define RASPPUCE_SECONDS_END  72057594037927936u
#define RASPPUCE_FRACTION_END 268435456u

/* The bytes that rasppuce_write_body writes for a mark with an offset (h is not 0) or without. */
#define RASPPUCE_BODY_BYTES(h) ((h) != 0 ? 16u : 12u)

/* For a message of m bytes: how many calls of the cipher a sealing makes, and the tape it needs. */
#define RASPPUCE_CALLS(m) (2u * (((m) + 15u) / 16u) + 2u)
#define RASPPUCE_TAPE_BYTES(m) \
    (RASPPUCE_KEY_MASKS_BYTES + RASPPUCE_ROUND_MASKS_BYTES * RASPPUCE_LAST_ROUND * RASPPUCE_CALLS(m))

/* ---- what a host needs besides the calls */

/* What an answer means, in words for a log. */
static inline const char *rasppuce_meaning(uint32_t answer)
{
    switch (answer) {
    case RASPPUCE_OK:           return "done";
    case RASPPUCE_KEYS:         return "key material or the link to key has a wrong length";
    case RASPPUCE_MESSAGE:      return "the message is over 256 bytes";
    case RASPPUCE_TAPE:         return "the tape is too short for this message";
    case RASPPUCE_OUTPUT:       return "an output is shorter than the result";
    case RASPPUCE_BLOCK:        return "a block call takes 16 bytes each";
    case RASPPUCE_CALL:         return "the sealing has no such call";
    case RASPPUCE_RECORD:       return "a record has 24 to 280 bytes, a wide one 28 to 284";
    case RASPPUCE_OTHER_LINK:   return "the record is for another link";
    case RASPPUCE_TAG:          return "wrong tag: damaged, forged or under another key";
    case RASPPUCE_SEQUENCE:     return "sequence numbers begin with 1; a narrow one has 32 bits";
    case RASPPUCE_NOT_KEYED:    return "these bytes are not a keyed link";
    case RASPPUCE_NUMBERS_USED: return "the link has used its last number: key it with fresh keys";
    case RASPPUCE_REPEATED:     return "this number was accepted before";
    case RASPPUCE_BODY_LENGTH:  return "a body has 4 to 256 bytes, in steps of 4";
    case RASPPUCE_BODY_WORD:    return "a word of the body or a value of the mark is not allowed";
    case RASPPUCE_BODY_MISSING: return "the body lacks the seconds or their fraction";
    case RASPPUCE_ROUND:        return "a call has no such round";
    case RASPPUCE_LANE:         return "a round has no such lane";
    case RASPPUCE_BELOW_WINDOW: return "the number is 0 or too far below the highest accepted";
    default:                    return "no answer of Rasppuce";
    }
}

/* Sets bytes to 0, also where a compiler sees that nobody reads them again. */
static inline void rasppuce_wipe(uint8_t *bytes, size_t len)
{
    volatile uint8_t *seen = bytes;
    for (size_t i = 0; i < len; i++)
        seen[i] = 0;
}

/* A call whose answer nobody looks at gets a warning, where the compiler has one. */
#if defined(__GNUC__)
#define RASPPUCE_CHECK __attribute__((warn_unused_result))
#else
#define RASPPUCE_CHECK
#endif

/* ---- links
 *
 * A link is bytes of the host, which keeps them between calls and lends them to each:
 *
 *     byte 0         1 if the link is keyed; anything else if not, so all zeros is a fresh link
 *     bytes 1 to 4   link number
 *     bytes 5 to 12  the last number used (sender) or the highest accepted (receiver)
 *     bytes 13 on    keys: 96 bytes for a sender, 32 for a receiver
 *     bytes 45 to 52, of a receiver only: the window, a word of 64 bits; bit k, of the value 2^k, is
 *                    1 if the number k below the highest accepted one was accepted
 *     the last byte  the width, 0 if narrow and 1 if wide: byte 109 of a sender, 53 of a receiver
 *
 * Only the calls below should change them. The bytes hold the keys: treat them as secret.
 *
 * As not keyed count: a slice of another length, such as a link stored by a version before 5, of 105
 * or 49 bytes; a width over 1; and a narrow link whose last or highest number is above 4294967295.
 * Such a link has to be keyed, with fresh keys.
 */

/*
 * Keys a sending link with a number, a width (wide: 0 if narrow, any other number if wide) and 96
 * bytes: three shares of KE, then three of KM, each of 16 bytes. A key is the XOR of its shares.
 * Whatever the link was before, it is keyed afterwards, its last number is 0, and the first record
 * will be number 1.
 *
 * Never key twice with the same keys and number, whatever the widths are: the sequence numbers would
 * begin again, and with them the same key stream.
 *
 * Refuses: RASPPUCE_KEYS (link not 110 bytes or keys not 96).
 */
RASPPUCE_CHECK
uint32_t rasppuce_key_sender(uint8_t *link, size_t link_len, uint32_t number, uint32_t wide,
                             const uint8_t *keys, size_t keys_len);

/*
 * Keys a receiving link with a number, a width (as for a sender, and the same as there) and 32
 * bytes: KE, then KM. Afterwards its highest number is 0 and its window clear. Keying again with
 * the same keys lets old records in again.
 *
 * Refuses: RASPPUCE_KEYS (link not 54 bytes or keys not 32).
 */
RASPPUCE_CHECK
uint32_t rasppuce_key_receiver(uint8_t *link, size_t link_len, uint32_t number, uint32_t wide,
                               const uint8_t *keys, size_t keys_len);

/*
 * Seals a message on a sending link, on shares, under the next sequence number.
 *
 * tape    random bytes, RASPPUCE_TAPE_BYTES(message_len) of them; the rest of a longer tape isn't
 *         read. Use fresh ones for each sealing (Tapes, above). The record doesn't depend on them.
 * record  gets message_len + 24 bytes: link number (4), sequence number (4), ciphertext, tag (16).
 *         On a wide link it gets message_len + 28: the sequence number has 8.
 * shares  gets 52 bytes: tag shares 0, 1, 2 of 16 bytes each, which XOR to the tag, then the
 *         number of tape bytes read (4).
 * link    its last number goes up by one; nothing else in it changes.
 *
 * The tag shares are for checks at the sender, not for the wire: they are the last call's output
 * before it was joined, the state shares that rasppuce_report shows of its round 36. Under a fresh
 * tape two of them tell nothing, and all three no more than the tag, which the record shows. Beside
 * the tape, or a lane of another round or call, nothing is claimed of them. So wipe them.
 *
 * Refuses, and then uses no number: RASPPUCE_NOT_KEYED, RASPPUCE_NUMBERS_USED, RASPPUCE_MESSAGE,
 * RASPPUCE_TAPE, RASPPUCE_OUTPUT (record shorter than what it gets, or shares than 52).
 */
RASPPUCE_CHECK
uint32_t rasppuce_seal(uint8_t *link, size_t link_len,
                       const uint8_t *message, size_t message_len,
                       const uint8_t *tape, size_t tape_len,
                       uint8_t *record, size_t record_len,
                       uint8_t *shares, size_t shares_len);

/*
 * Opens a record on a receiving link. Records may arrive in any order: one is opened if its number is
 * above the highest accepted one, or among the 64 up to that one and not accepted yet. This is the
 * anti-replay window of RFC 4303. A record that arrives 64 numbers late or later is lost.
 *
 * message  gets the record_len - 24 bytes that were sealed, on a wide link record_len - 28.
 * link     the window has the record's number; if it is the highest yet, it becomes the highest
 *          number, and the window moves up with it. Nothing else in the link changes.
 *
 * Refuses: RASPPUCE_NOT_KEYED, RASPPUCE_RECORD, RASPPUCE_OTHER_LINK, RASPPUCE_OUTPUT (message
 * shorter than what it gets), RASPPUCE_BELOW_WINDOW, RASPPUCE_REPEATED, RASPPUCE_TAG.
 *
 * A record doesn't say its width. If a receiver has the number and the keys of its sender, but the
 * other width, it answers to a record of m bytes of message
 *
 *     narrow, to a wide one   RASPPUCE_RECORD if m is over 252, RASPPUCE_OUTPUT if message_len is
 *                             under m + 4; else RASPPUCE_BELOW_WINDOW if the sequence number is below
 *                             2^32, since it is read as 0, and RASPPUCE_TAG from there on
 *     wide, to a narrow one   RASPPUCE_RECORD if m is under 4, RASPPUCE_OUTPUT if message_len is
 *                             under m - 4; else RASPPUCE_TAG
 *
 * In place of RASPPUCE_TAG it answers RASPPUCE_BELOW_WINDOW or RASPPUCE_REPEATED if it has accepted
 * records of its own width and its window does not admit the number that it reads.
 */
RASPPUCE_CHECK
uint32_t rasppuce_open(uint8_t *link, size_t link_len,
                       const uint8_t *record, size_t record_len,
                       uint8_t *message, size_t message_len);

/*
 * Seals a message plainly: 32 bytes of keys (KE, then KM), the link number, the width (wide: 0 if
 * narrow, any other number if wide) and the sequence number to use. The record is the one that
 * rasppuce_seal makes on a link of that number and width whose shares XOR to these keys and whose
 * next number is that sequence number.
 *
 * The host has to see to it that no sequence number is used twice under the same keys and number,
 * whatever the widths are.
 *
 * sequence  from 1 to RASPPUCE_SEQUENCE_MOST(wide)
 * record    gets message_len + 24 bytes, or message_len + 28 if wide.
 *
 * Refuses: RASPPUCE_KEYS (not 32 bytes), RASPPUCE_SEQUENCE, RASPPUCE_MESSAGE, RASPPUCE_OUTPUT.
 */
RASPPUCE_CHECK
uint32_t rasppuce_seal_plain(const uint8_t *keys, size_t keys_len,
                             uint32_t number, uint32_t wide, uint64_t sequence,
                             const uint8_t *message, size_t message_len,
                             uint8_t *record, size_t record_len);

/*
 * Shows one lane of the sealing that the link would do next with this message and tape: all that a
 * round works on to make one share of the state. The link stays as it is.
 *
 * call   1 to RASPPUCE_CALLS(message_len); for n blocks of message, calls 1 to n make the key
 *        stream, call n+1 the subkeys, calls n+2 to 2n+2 the tag
 * round  1 to 36; 36 shows the call's output, after the masks that go into it
 * lane   0 to 2
 * out    gets 48 bytes: state shares lane+1 and lane+2 (counted modulo 3), just after the round's
 *        masks, then key share lane as the round adds it; for round 36, as round 35 does
 *
 * Refuses: RASPPUCE_NOT_KEYED, RASPPUCE_NUMBERS_USED, RASPPUCE_MESSAGE, RASPPUCE_TAPE,
 * RASPPUCE_CALL, RASPPUCE_ROUND, RASPPUCE_LANE, RASPPUCE_OUTPUT (shorter than 48).
 */
RASPPUCE_CHECK
uint32_t rasppuce_report(const uint8_t *link, size_t link_len,
                         const uint8_t *message, size_t message_len,
                         const uint8_t *tape, size_t tape_len,
                         uint32_t call, uint32_t round, uint32_t lane,
                         uint8_t *out, size_t out_len);

/* ---- the body of a mark: what to seal
 *
 * A body is words of 32 bits, each big-endian in four bytes. The top four bits of a word are its
 * kind, the other 28 its field:
 *
 *     kind 0          not allowed
 *     kind 1          the high 28 bits of the count of seconds
 *     kind 2          its low 28 bits
 *     kind 3          the fraction of a second, in 2^-28 seconds
 *     kind 4          the local offset in minutes, -720 to 840, in two's complement
 *     kinds 5 to 15   skipped when read
 *
 * Kinds 1, 2 and 3 are needed, 4 may be missing, and none of 1 to 4 may stand twice. In any order
 * the words say the same. From which instant on seconds are counted is the host's choice.
 */

/*
 * Reads a body.
 *
 * values  gets 17 bytes: seconds (8), fraction (4), 1 if there is an offset or else 0 (1), the
 *         offset in 32 bits of two's complement, or zeros (4).
 *
 * Refuses: RASPPUCE_BODY_LENGTH, RASPPUCE_BODY_WORD, RASPPUCE_BODY_MISSING, RASPPUCE_OUTPUT (values
 * shorter than 17).
 */
RASPPUCE_CHECK
uint32_t rasppuce_read_body(const uint8_t *body, size_t body_len,
                            uint8_t *values, size_t values_len);

/*
 * Writes the body of a mark: kinds 1, 2, 3, and 4 if it has an offset.
 *
 * seconds     below RASPPUCE_SECONDS_END
 * fraction    below RASPPUCE_FRACTION_END
 * has_offset  0 if there is no offset; offset isn't looked at then
 * offset      -720 to 840
 * body        gets RASPPUCE_BODY_BYTES(has_offset) bytes, 12 or 16
 *
 * Refuses: RASPPUCE_BODY_WORD (a value out of its range), RASPPUCE_OUTPUT (body shorter than that).
 */
RASPPUCE_CHECK
uint32_t rasppuce_write_body(uint64_t seconds, uint32_t fraction,
                             uint32_t has_offset, int32_t offset,
                             uint8_t *body, size_t body_len);

/* ---- the block cipher alone
 *
 * Key, input and output are 16 bytes each. Both engines, by table and by packed words, do the same.
 *
 * Refuses: RASPPUCE_BLOCK.
 */
RASPPUCE_CHECK
uint32_t rasppuce_encrypt_table(const uint8_t *key, size_t key_len,
                                const uint8_t *input, size_t input_len,
                                uint8_t *output, size_t output_len);
RASPPUCE_CHECK
uint32_t rasppuce_decrypt_table(const uint8_t *key, size_t key_len,
                                const uint8_t *input, size_t input_len,
                                uint8_t *output, size_t output_len);
RASPPUCE_CHECK
uint32_t rasppuce_encrypt_packed(const uint8_t *key, size_t key_len,
                                 const uint8_t *input, size_t input_len,
                                 uint8_t *output, size_t output_len);
RASPPUCE_CHECK
uint32_t rasppuce_decrypt_packed(const uint8_t *key, size_t key_len,
                                 const uint8_t *input, size_t input_len,
                                 uint8_t *output, size_t output_len);

#ifdef __cplusplus
}
#endif

#endif
