/*
 * A rack's host in C: keys a pair of links, narrow and then wide, seals by shares and plainly, opens in
 * turn and out of it, writes and reads bodies, and meets every refusal. It checks all that it sees; the
 * exit status is 1 if anything surprised it.
 *
 *     host                      does all that three times: with every slice before a page that can't
 *                               be touched, with every slice after one, and at odd addresses
 *     host before, host behind  reads one byte outside a slice, so that SIGSEGV has to end it
 */
#define _DEFAULT_SOURCE /* for MAP_ANONYMOUS */
#include "rasppuce.h"
#include "check.h"

#include <stdio.h>
#include <stdlib.h>
#include <string.h>
#include <sys/mman.h>

/* ---- bytes */

/* Enough for the longest slice, and whole pages, of whatever size. */
enum { ROOM = 65536 };

/*
 * A slice stands alone in a room, with pages on both sides that can't be touched. It ends where
 * the room ends or begins where it begins: a step outside on that side ends the program. Or it
 * begins a byte later, where no number or word is aligned.
 */
typedef struct {
    uint8_t *room;
    uint8_t *at;
    size_t len;
    uint8_t saved[ROOM]; /* what stood there when `save` was called */
} slice;

#define LEND(s) (s).at, (s).len

static enum { AT_START, AT_END, AT_ODD, PLACES } place; /* where slices stand in their rooms */

enum { MOST_SLICES = 24 };
static slice *all_slices[MOST_SLICES];
static unsigned slice_count;

/* Makes the slice `len` bytes long; it keeps its first ones. */
static void fit(slice *s, size_t len)
{
    uint8_t *at = place == AT_END ? s->room + ROOM - len : s->room + (place == AT_ODD);
    memmove(at, s->at, len < s->len ? len : s->len);
    s->at = at;
    s->len = len;
}

/* A new slice of zeros. */
static void take(slice *s, size_t len)
{
    uint8_t *pages = mmap(NULL, 3 * ROOM, PROT_NONE, MAP_PRIVATE | MAP_ANONYMOUS, -1, 0);
    if (pages == MAP_FAILED || mprotect(pages + ROOM, ROOM, PROT_READ | PROT_WRITE) != 0
        || slice_count == MOST_SLICES) {
        printf("no memory\n");
        exit(2);
    }
    s->room = s->at = pages + ROOM;
    s->len = 0;
    fit(s, len);
    all_slices[slice_count++] = s;
}

static void give_all_back(void)
{
    while (slice_count > 0)
        munmap(all_slices[--slice_count]->room - ROOM, 3 * ROOM);
}

static void save(void)
{
    for (unsigned i = 0; i < slice_count; i++)
        memcpy(all_slices[i]->saved, all_slices[i]->at, all_slices[i]->len);
}

static int all_as_saved(void)
{
    for (unsigned i = 0; i < slice_count; i++)
        if (memcmp(all_slices[i]->saved, all_slices[i]->at, all_slices[i]->len) != 0)
            return 0;
    return 1;
}

/* A mark in every byte of an output, and whether it still stands in all bytes from `from` on. */
enum { MARK = 0x5a };

static void mark(slice *s)
{
    memset(s->at, MARK, s->len);
}

static int untouched(const slice *s, size_t from)
{
    for (size_t i = from; i < s->len; i++)
        if (s->at[i] != MARK)
            return 0;
    return 1;
}

/*
 * Stands for the rack's random source. Here every run takes the same bytes, so that it can be
 * repeated; a rack in service has to take true random ones for keys, shares and tapes.
 */
static void fill(slice *s)
{
    static uint64_t state = 0x243f6a8885a308d3;
    for (size_t i = 0; i < s->len; i++) {
        state ^= state << 13;
        state ^= state >> 7;
        state ^= state << 17;
        s->at[i] = (uint8_t)(state >> 32);
    }
}

static uint32_t number_at(const uint8_t *bytes)
{
    return (uint32_t)bytes[0] << 24 | (uint32_t)bytes[1] << 16 | (uint32_t)bytes[2] << 8 | bytes[3];
}

static void put_number(uint8_t *bytes, uint32_t number)
{
    for (int i = 0; i < 4; i++)
        bytes[i] = (uint8_t)(number >> (24 - 8 * i));
}

static uint64_t word_at(const uint8_t *bytes)
{
    return (uint64_t)number_at(bytes) << 32 | number_at(bytes + 4);
}

static void put_word(uint8_t *bytes, uint64_t word)
{
    put_number(bytes, (uint32_t)(word >> 32));
    put_number(bytes + 4, (uint32_t)word);
}

/* XORs a block into another. */
static void add(uint8_t *to, const uint8_t *what)
{
    for (int i = 0; i < 16; i++)
        to[i] ^= what[i];
}

/* The XOR of three blocks, each `apart` bytes behind the one before. */
static void join(uint8_t *block, const uint8_t *shares, size_t apart)
{
    memcpy(block, shares, 16);
    add(block, shares + apart);
    add(block, shares + 2 * apart);
}

/* ---- the rack */

enum { LINK = 7 }; /* the link's number */

static uint32_t wide; /* the width of links and records, as it is told */

/* Places in a link, whose last byte is its width; a sender has no window. */
enum { NUMBER_AT = 1, LAST_AT = 5, KEYS_AT = 13, WINDOW_AT = 45 };

static uint64_t last_of(const slice *link)
{
    return word_at(link->at + LAST_AT);
}

static uint8_t *width_of(const slice *link)
{
    return link->at + link->len - 1;
}

/* ---- records of this width */

enum { SEQUENCE_AT = RASPPUCE_NUMBER_BYTES };

static size_t record_len_for(size_t message_len)
{
    return message_len + RASPPUCE_RECORD_ADDS(wide);
}

static const uint8_t *text_in(const uint8_t *bytes)
{
    return bytes + SEQUENCE_AT + RASPPUCE_SEQUENCE_BYTES(wide);
}

static uint64_t sequence_in(const uint8_t *bytes)
{
    return wide ? word_at(bytes + SEQUENCE_AT) : number_at(bytes + SEQUENCE_AT);
}

static void put_sequence(uint8_t *bytes, uint64_t number)
{
    if (wide)
        put_word(bytes + SEQUENCE_AT, number);
    else
        put_number(bytes + SEQUENCE_AT, (uint32_t)number);
}

/* The last number there is. */
static uint64_t most(void)
{
    return RASPPUCE_SEQUENCE_MOST(wide);
}

/* ---- what is lent */

static slice keys;           /* KE, then KM */
static slice key_shares;     /* three shares of KE, then three of KM */
static slice sender;         /* the sending link */
static slice receiver;       /* the receiving link of the records sealed by shares */
static slice plain_receiver; /* another one, of those sealed plainly */
static slice message, tape, record, plain_record, tag_shares, opened, lane;
static slice key, block, by_table, by_words, back; /* for the block cipher */
static slice body, values;   /* of a time mark */
static slice fresh;          /* a sending link that is never keyed */
static slice odd;            /* of a length that is refused */

static void set_up(void)
{
    take(&keys, RASPPUCE_RECEIVER_KEY_BYTES);
    take(&key_shares, RASPPUCE_SENDER_KEY_BYTES);
    take(&sender, RASPPUCE_SENDER_BYTES);
    take(&receiver, RASPPUCE_RECEIVER_BYTES);
    take(&plain_receiver, RASPPUCE_RECEIVER_BYTES);
    take(&message, RASPPUCE_MESSAGE_MOST);
    take(&tape, RASPPUCE_TAPE_MOST);
    take(&record, RASPPUCE_RECORD_MOST);
    take(&plain_record, RASPPUCE_RECORD_MOST);
    take(&tag_shares, RASPPUCE_SHARES_BYTES);
    take(&opened, RASPPUCE_MESSAGE_MOST);
    take(&lane, RASPPUCE_LANE_BYTES);
    take(&key, RASPPUCE_BLOCK_BYTES);
    take(&block, RASPPUCE_BLOCK_BYTES);
    take(&by_table, RASPPUCE_BLOCK_BYTES);
    take(&by_words, RASPPUCE_BLOCK_BYTES);
    take(&back, RASPPUCE_BLOCK_BYTES);
    take(&body, RASPPUCE_BODY_MOST);
    take(&values, RASPPUCE_VALUES_BYTES);
    take(&fresh, RASPPUCE_SENDER_BYTES);
    take(&odd, 0);
}

/* ---- the numbers that a receiver has accepted, as the host keeps them, and what follows from them */

enum { MOST_ACCEPTED = 512 };
static uint64_t accepted[MOST_ACCEPTED];
static unsigned accepted_count;

static void accept(uint64_t number)
{
    if (accepted_count == MOST_ACCEPTED) {
        printf("no room for the numbers accepted\n");
        exit(2);
    }
    accepted[accepted_count++] = number;
}

static int was_accepted(uint64_t number)
{
    for (unsigned i = 0; i < accepted_count; i++)
        if (accepted[i] == number)
            return 1;
    return 0;
}

static uint64_t highest_accepted(void)
{
    uint64_t highest = 0;
    for (unsigned i = 0; i < accepted_count; i++)
        if (accepted[i] > highest)
            highest = accepted[i];
    return highest;
}

/* Bit k is for the number k below the highest; numbers begin with 1. */
static uint64_t window_of_accepted(void)
{
    uint64_t word = 0, highest = highest_accepted();
    for (unsigned k = 0; k < RASPPUCE_WINDOW && k < highest; k++)
        word |= (uint64_t)was_accepted(highest - k) << k;
    return word;
}

/* The answer to a sound record of this number. */
static uint32_t answer_to(uint64_t number)
{
    uint64_t highest = highest_accepted();
    if (number == 0 || (number < highest && highest - number >= RASPPUCE_WINDOW))
        return RASPPUCE_BELOW_WINDOW;
    return was_accepted(number) ? RASPPUCE_REPEATED : RASPPUCE_OK;
}

/* The link has these numbers and no other, and is what it was when `save` was called in all else. */
static int window_right(const slice *link)
{
    return last_of(link) == highest_accepted() && word_at(link->at + WINDOW_AT) == window_of_accepted()
        && memcmp(link->at, link->saved, LAST_AT) == 0
        && memcmp(link->at + KEYS_AT, link->saved + KEYS_AT, WINDOW_AT - KEYS_AT) == 0
        && *width_of(link) == link->saved[link->len - 1];
}

/* ---- keying */

/* Keys a receiver, whatever stands in it. */
static void key_receiver(slice *link, uint32_t number)
{
    mark(link);
    check(rasppuce_key_receiver(LEND(*link), number, wide, LEND(keys)) == RASPPUCE_OK, "keying a receiver");
    check(link->at[0] == 1 && number_at(link->at + NUMBER_AT) == number
          && memcmp(link->at + KEYS_AT, keys.at, keys.len) == 0, "a keyed receiver has its number and its keys");
    check(last_of(link) == 0 && word_at(link->at + WINDOW_AT) == 0, "and has accepted no number");
    check(*width_of(link) == (wide != 0), "and its width is 0 or 1");
}

/* Keys the sender, whatever stands in it, with three shares of each key and both receivers with the joined
 * keys. */
static void key_links(void)
{
    fill(&key_shares);
    join(keys.at, key_shares.at, 16);
    join(keys.at + 16, key_shares.at + 48, 16);
    mark(&sender);
    check(rasppuce_key_sender(LEND(sender), LINK, wide, LEND(key_shares)) == RASPPUCE_OK, "keying the sender");
    check(sender.at[0] == 1 && number_at(sender.at + NUMBER_AT) == LINK && last_of(&sender) == 0,
          "a keyed sender has its number, and 0 as the last one");
    check(memcmp(sender.at + KEYS_AT, key_shares.at, key_shares.len) == 0 && *width_of(&sender) == (wide != 0),
          "and its key shares, and its width is 0 or 1");
    key_receiver(&receiver, LINK);
    key_receiver(&plain_receiver, LINK);
    accepted_count = 0;
}

/* ---- sealing and opening */

/* What an output has more than the result, where the rest has to stay as it was. */
enum { SPARE = 16 };

/* A message of `len` random bytes, and a tape for it. */
static void prepare(size_t len)
{
    fit(&message, len);
    fit(&tape, RASPPUCE_TAPE_BYTES(len));
    fill(&message);
    fill(&tape);
}

/* An output of `len` bytes, each with the mark. */
static void fit_marked(slice *s, size_t len)
{
    fit(s, len);
    mark(s);
}

/* One message by shares and plainly: the same record, and both receivers open it. */
static void send(size_t len)
{
    uint64_t sequence = last_of(&sender) + 1;
    size_t record_len = record_len_for(len);
    prepare(len);

    fit_marked(&record, record_len + SPARE);
    fill(&tag_shares);
    save();
    uint32_t answer = rasppuce_seal(LEND(sender), LEND(message), LEND(tape), LEND(record), LEND(tag_shares));
    check(answer == RASPPUCE_OK, "sealing by shares");
    check(untouched(&record, record_len), "nothing is written past the record");
    fit(&record, record_len);
    check(last_of(&sender) == sequence, "the sender's last number goes up by one");
    put_word(sender.saved + LAST_AT, sequence);
    check(memcmp(sender.at, sender.saved, sender.len) == 0, "nothing else in the sender changes");
    check(number_at(record.at) == LINK && sequence_in(record.at) == sequence,
          "a record begins with link number and sequence number");
    uint8_t tag[16];
    join(tag, tag_shares.at, 16);
    check(memcmp(tag, record.at + record_len - RASPPUCE_TAG_BYTES, 16) == 0,
          "the tag shares join to the tag");
    check(number_at(tag_shares.at + 48) == RASPPUCE_TAPE_BYTES(len), "the tape count is the need");

    fit_marked(&plain_record, record_len);
    answer = rasppuce_seal_plain(LEND(keys), LINK, wide, sequence, LEND(message), LEND(plain_record));
    check(answer == RASPPUCE_OK, "sealing plainly");
    check(memcmp(record.at, plain_record.at, record_len) == 0, "both sealings give the same record");

    fit_marked(&opened, len + SPARE);
    answer = rasppuce_open(LEND(receiver), LEND(record), LEND(opened));
    check(answer == RASPPUCE_OK && memcmp(opened.at, message.at, len) == 0, "opening the shared one");
    check(untouched(&opened, len), "nothing is written past the message");
    fit_marked(&opened, len);
    answer = rasppuce_open(LEND(plain_receiver), LEND(plain_record), LEND(opened));
    check(answer == RASPPUCE_OK && memcmp(opened.at, message.at, len) == 0, "opening the plain one");
    accept(sequence);
    check(window_right(&receiver) && memcmp(receiver.at, plain_receiver.at, receiver.len) == 0,
          "both receivers have accepted this number");
    printf("  message of %3lu bytes, number %llu: one record of %lu bytes, opened on both links\n",
           (unsigned long)len, (unsigned long long)sequence, (unsigned long)record_len);
}

/* The sender as it is when all numbers up to this one are used. */
static void use_up_to(uint64_t last)
{
    put_word(sender.at + LAST_AT, last);
}

/* Messages of several lengths, and then under numbers far apart. */
static void send_all(void)
{
    static const size_t lengths[] = {0, 1, 8, 15, 16, 17, 32, 255, 256};
    static const uint64_t lasts[] = {0x01234566, UINT32_MAX - 1, UINT32_MAX, UINT32_MAX + (uint64_t)1,
                                     0x0123456789abcdee, UINT64_MAX - 1};
    for (size_t i = 0; i < sizeof lengths / sizeof lengths[0]; i++)
        send(lengths[i]);
    for (size_t i = 0; i < sizeof lasts / sizeof lasts[0] && lasts[i] < most(); i++) {
        use_up_to(lasts[i]);
        send(24);
    }
    check(last_of(&sender) == most(), "the last number there is was used");
}

/* ---- records that arrive out of turn */

enum { SHORT = 8 }; /* the length of their messages */

/* A record, and the message in it. */
typedef struct {
    uint8_t message[SHORT], record[SHORT + RASPPUCE_RECORD_ADDS(RASPPUCE_WIDE)];
} kept_record;

/* What was sealed: the message, and this record. */
static void keep(kept_record *k, const slice *sealed)
{
    memcpy(k->message, message.at, SHORT);
    memcpy(k->record, sealed->at, sealed->len);
}

/* A record sealed by shares, under the sender's next number. */
static void keep_next(kept_record *k)
{
    prepare(SHORT);
    fit(&record, record_len_for(SHORT));
    check(rasppuce_seal(LEND(sender), LEND(message), LEND(tape), LEND(record), LEND(tag_shares)) == RASPPUCE_OK,
          "sealing by shares");
    keep(k, &record);
}

enum { CHOSEN_LINK = LINK + 1 }; /* a link of its own for records of chosen numbers */

/* The record of a number: the same one each time. None is sealed under 0, so that is put in by hand. */
static void keep_chosen(kept_record *k, uint64_t number)
{
    uint64_t sealed = number == 0 ? 1 : number;
    fit(&message, SHORT);
    put_word(message.at, ~sealed);
    fit(&plain_record, record_len_for(SHORT));
    check(rasppuce_seal_plain(LEND(keys), CHOSEN_LINK, wide, sealed, LEND(message), LEND(plain_record)) == RASPPUCE_OK,
          "sealing plainly");
    put_sequence(plain_record.at, number);
    keep(k, &plain_record);
}

/* Puts a kept record where it is to be opened. */
static void lend_record(const kept_record *k)
{
    fit(&record, record_len_for(SHORT));
    memcpy(record.at, k->record, record.len);
    fit_marked(&opened, SHORT);
    save();
}

/* A kept record arrives: it is answered, and the link then is, as the numbers accepted before say. */
static uint32_t arrive(slice *link, const kept_record *k)
{
    uint64_t number = sequence_in(k->record);
    uint32_t expected = answer_to(number);
    lend_record(k);
    uint32_t answer = rasppuce_open(LEND(*link), LEND(record), LEND(opened));
    check(answer == expected, "a number is admitted if it is above the window, or in it and new");
    if (answer == RASPPUCE_OK) {
        check(memcmp(opened.at, k->message, SHORT) == 0, "the message sealed under this number");
        accept(number);
    } else {
        check(all_as_saved(), "a refusal leaves every byte as it was");
    }
    check(window_right(link), "the window has the numbers accepted and no other");
    return answer;
}

/* The other receiver is keyed anew, for chosen numbers. */
static void key_chosen(void)
{
    key_receiver(&plain_receiver, CHOSEN_LINK);
    accepted_count = 0;
}

/* The record of a chosen number arrives there. */
static uint32_t arrive_chosen(uint64_t number)
{
    kept_record k;
    keep_chosen(&k, number);
    return arrive(&plain_receiver, &k);
}

enum { RUN = 6 };

/* A run of records sealed by shares, behind this number, that arrive in another order: each is opened once. */
static void shuffled_run(uint64_t last)
{
    static const unsigned order[RUN] = {2, 0, 5, 1, 4, 3};
    kept_record run[RUN];
    use_up_to(last);
    for (unsigned i = 0; i < RUN; i++)
        keep_next(&run[i]);
    check(sequence_in(run[0].record) == last + 1 && last_of(&sender) == last + RUN, "the numbers of a run");
    for (unsigned i = 0; i < RUN; i++)
        check(arrive(&receiver, &run[order[i]]) == RASPPUCE_OK, "a record out of turn is opened");
    for (unsigned i = 0; i < RUN; i++)
        check(arrive(&receiver, &run[i]) == RASPPUCE_REPEATED, "and is refused the second time");
    printf("  %u records sealed by shares, %llu and on: opened in another order, each once\n", RUN,
           (unsigned long long)last + 1);
}

/* Numbers in the order of their arrival at a new link, and the answer to each. */
typedef struct {
    uint64_t number;
    uint32_t answer;
    const char *how;
} arrival;

static const arrival arrivals[] = {
    {0, RASPPUCE_BELOW_WINDOW, "0 on a new link"},
    {2, RASPPUCE_OK, "the first to arrive"},
    {0, RASPPUCE_BELOW_WINDOW, "0, two below"},
    {1, RASPPUCE_OK, "one below"},
    {64, RASPPUCE_OK, "the window has 1 to 64"},
    {1, RASPPUCE_REPEATED, "63 below, again"},
    {65, RASPPUCE_OK, "the next one up"},
    {1, RASPPUCE_BELOW_WINDOW, "64 below, accepted before"},
    {2, RASPPUCE_REPEATED, "63 below, again"},
    {128, RASPPUCE_OK, "63 up: 65 is the last to stay"},
    {65, RASPPUCE_REPEATED, "63 below, again"},
    {64, RASPPUCE_BELOW_WINDOW, "64 below, accepted before"},
    {63, RASPPUCE_BELOW_WINDOW, "65 below, never accepted"},
    {66, RASPPUCE_OK, "62 below"},
    {192, RASPPUCE_OK, "64 up: none stays"},
    {129, RASPPUCE_OK, "63 below"},
    {128, RASPPUCE_BELOW_WINDOW, "64 below, accepted before"},
    {257, RASPPUCE_OK, "65 up: none stays"},
    {193, RASPPUCE_BELOW_WINDOW, "64 below, never accepted"},
    {194, RASPPUCE_OK, "63 below"},
    {4294967295, RASPPUCE_OK, "the last number of 32 bits"},
    {4294967232, RASPPUCE_OK, "63 below"},
    {4294967231, RASPPUCE_BELOW_WINDOW, "64 below, never accepted"},
    {4294967295, RASPPUCE_REPEATED, "the last number of 32 bits, again"},
    {1, RASPPUCE_BELOW_WINDOW, "there is no way round to 1"},
    {4294967297, RASPPUCE_OK, "two up: 2^32 + 1"},
    {4294967295, RASPPUCE_REPEATED, "two below, again"},
    {4294967296, RASPPUCE_OK, "2^32, one below"},
    {4294967234, RASPPUCE_OK, "63 below"},
    {4294967233, RASPPUCE_BELOW_WINDOW, "64 below, never accepted"},
    {1, RASPPUCE_BELOW_WINDOW, "2^32 below"},
    {4294967358, RASPPUCE_OK, "61 up: the window has 2^32 - 1 and on"},
    {4294967295, RASPPUCE_REPEATED, "63 below, again"},
    {4294967359, RASPPUCE_OK, "the next one up"},
    {4294967295, RASPPUCE_BELOW_WINDOW, "64 below, accepted before"},
    {8589934655, RASPPUCE_OK, "2^32 up: none stays"},
    {4294967359, RASPPUCE_BELOW_WINDOW, "2^32 below, accepted before"},
    {18446744073709551552u, RASPPUCE_OK, "63 below the last number"},
    {18446744073709551615u, RASPPUCE_OK, "the last number"},
    {18446744073709551552u, RASPPUCE_REPEATED, "63 below, again"},
    {18446744073709551551u, RASPPUCE_BELOW_WINDOW, "64 below, never accepted"},
    {18446744073709551553u, RASPPUCE_OK, "62 below"},
    {18446744073709551615u, RASPPUCE_REPEATED, "the last number, again"},
    {4294967295, RASPPUCE_BELOW_WINDOW, "its lower half"},
    {1, RASPPUCE_BELOW_WINDOW, "there is no way round to 1"},
};

/* On a narrow link only the first ones, up to its last number. */
static void chosen_numbers(void)
{
    key_chosen();
    for (size_t i = 0; i < sizeof arrivals / sizeof arrivals[0]; i++) {
        const arrival *a = &arrivals[i];
        if (a->number > most())
            break;
        uint32_t answer = arrive_chosen(a->number);
        check(answer == a->answer, a->how);
        printf("  number %20llu: %2lu, window %016llx  %s\n", (unsigned long long)a->number, (unsigned long)answer,
               (unsigned long long)word_at(plain_receiver.at + WINDOW_AT), a->how);
    }
}

/* A number from 80 below the highest to 15 above it, but none past the last. */
static uint64_t random_near(uint64_t highest)
{
    enum { BELOW = 80, ABOVE = 15 };
    fill(&block);
    uint32_t step = number_at(block.at) % (BELOW + ABOVE + 1);
    if (step < BELOW)
        return highest < BELOW - step ? 0 : highest - (BELOW - step);
    return most() - highest < step - BELOW ? most() : highest + (step - BELOW);
}

/* Such numbers, behind a first one; 0 for none. */
static void random_numbers(uint64_t first)
{
    enum { ARRIVALS = 400 };
    unsigned new_ones = 0, repeated = 0;
    key_chosen();
    if (first > 0)
        check(arrive_chosen(first) == RASPPUCE_OK, "the first number is opened");
    for (int i = 0; i < ARRIVALS; i++) {
        uint32_t answer = arrive_chosen(random_near(highest_accepted()));
        new_ones += answer == RASPPUCE_OK;
        repeated += answer == RASPPUCE_REPEATED;
    }
    unsigned below = ARRIVALS - new_ones - repeated;
    check(new_ones > 50 && repeated > 50 && below > 50, "many answers of each kind");
    printf("  %d random numbers, %llu to %llu: %u opened, %u repeated, %u below the window\n", ARRIVALS,
           (unsigned long long)first, (unsigned long long)highest_accepted(), new_ones, repeated, below);
}

/* From the first number on, across 2^32, and up to the last one. */
static void out_of_turn(void)
{
    key_links();
    shuffled_run(0);
    chosen_numbers();
    random_numbers(0);
    if (most() > UINT32_MAX) {
        key_links();
        shuffled_run(UINT32_MAX - RUN / 2);
        random_numbers(UINT32_MAX - 150);
        check(highest_accepted() > UINT32_MAX, "numbers on both sides of 2^32");
    }
    key_links();
    shuffled_run(most() - RUN);
    random_numbers(most() - 150);
    check(highest_accepted() == most(), "numbers up to the last one");
}

/* ---- reports and blocks */

/* Where the key share stands in a lane, behind two state shares. */
enum { KEY_SHARE_AT = 32 };

/* The three lanes of one round, one behind the other. */
typedef struct {
    uint8_t at[3 * RASPPUCE_LANE_BYTES];
} lanes;

static const uint8_t *lane_of(const lanes *l, int i)
{
    return l->at + RASPPUCE_LANE_BYTES * i;
}

/* State share i, which stands first in the lane before it. */
static const uint8_t *state_share(const lanes *l, int i)
{
    return lane_of(l, (i + 2) % 3);
}

/* What is shown of a round of the next sealing. */
static lanes show(uint32_t call, uint32_t round)
{
    lanes shown;
    for (uint32_t i = 0; i <= RASPPUCE_LAST_LANE; i++) {
        mark(&lane);
        save();
        uint32_t answer = rasppuce_report(LEND(sender), LEND(message), LEND(tape), call, round, i, LEND(lane));
        check(answer == RASPPUCE_OK && !untouched(&lane, 0), "a report");
        check(memcmp(sender.saved, sender.at, sender.len) == 0, "a report leaves the link alone");
        memcpy(shown.at + RASPPUCE_LANE_BYTES * i, lane.at, RASPPUCE_LANE_BYTES);
    }
    for (int i = 0; i < 3; i++)
        check(memcmp(lane_of(&shown, i) + 16, lane_of(&shown, (i + 1) % 3), 16) == 0,
              "a state share stands in two lanes");
    return shown;
}

/* The three lanes of one round, for a new message. */
static void report(size_t len, uint32_t call, uint32_t round)
{
    prepare(len);
    show(call, round);
    printf("  lanes 0, 1, 2 of call %lu, round %lu: three state shares, each in two lanes\n",
           (unsigned long)call, (unsigned long)round);
}

/* A call's output, as the last round shows it: joined, the cipher's block for what the first round shows. */
static lanes show_output(uint32_t call, const uint8_t *call_key)
{
    uint8_t joined[16];
    lanes first = show(call, 1);
    lanes before = show(call, RASPPUCE_LAST_ROUND - 1), last = show(call, RASPPUCE_LAST_ROUND);
    for (int i = 0; i < 3; i++)
        check(memcmp(lane_of(&last, i) + KEY_SHARE_AT, lane_of(&before, i) + KEY_SHARE_AT, 16) == 0,
              "the output has the key shares of the round before it");
    memcpy(key.at, call_key, 16);
    join(block.at, first.at, RASPPUCE_LANE_BYTES);
    add(block.at, key.at);
    join(joined, last.at, RASPPUCE_LANE_BYTES);
    check(rasppuce_encrypt_packed(LEND(key), LEND(block), LEND(by_words)) == RASPPUCE_OK
          && memcmp(by_words.at, joined, 16) == 0, "the output joins to the block that the cipher makes");
    return last;
}

/* The pair of masks at the tape's end goes into the last call's output; zeros there leave it bare. */
static void last_masks(uint32_t call, const lanes *masked)
{
    uint8_t masks[48] = {0}, *pair = tape.at + tape.len - RASPPUCE_ROUND_MASKS_BYTES;
    memcpy(masks, pair, 32);
    add(masks + 32, masks);
    add(masks + 32, masks + 16);
    memset(pair, 0, 32);
    lanes bare = show(call, RASPPUCE_LAST_ROUND);
    memcpy(pair, masks, 32);
    for (int i = 0; i < 3; i++) {
        add(masks + 16 * i, state_share(&bare, i));
        check(memcmp(masks + 16 * i, state_share(masked, i), 16) == 0,
              "u, v and u XOR v go into the output shares");
    }
}

/* The input that `show_output` leaves in `block` is the next sealing's counter block of this index. */
static void check_counter(uint32_t index)
{
    uint8_t counter[16];
    put_number(counter, LINK);
    put_word(counter + 4, last_of(&sender) + 1);
    put_number(counter + 12, index);
    check(memcmp(block.at, counter, 16) == 0, "a counter block has link number, sequence number in 8 bytes, index");
}

/* The outputs of all calls, for a new message under the number behind this one; then the sealing shown. */
static void report_outputs(size_t len, uint64_t last)
{
    const uint32_t calls = RASPPUCE_CALLS(len), count = calls / 2 - 1; /* as many make the key stream */
    uint8_t stream[RASPPUCE_MESSAGE_MOST], tag[16];
    lanes output;
    prepare(len);
    use_up_to(last);
    for (uint32_t call = 1; call <= calls; call++) {
        output = show_output(call, call <= count ? keys.at : keys.at + 16);
        if (call <= count) {
            join(stream + 16 * (call - 1), output.at, RASPPUCE_LANE_BYTES);
            check_counter(call - 1);
        } else if (call == count + 2 && count > 0) {
            check_counter(0); /* the tag's first call */
        }
    }
    last_masks(calls, &output);

    fit(&record, record_len_for(len));
    uint32_t answer = rasppuce_seal(LEND(sender), LEND(message), LEND(tape), LEND(record), LEND(tag_shares));
    check(answer == RASPPUCE_OK, "sealing what was shown");
    for (size_t i = 0; i < len; i++)
        stream[i] ^= message.at[i];
    check(memcmp(text_in(record.at), stream, len) == 0, "outputs join to the key stream");
    join(tag, output.at, RASPPUCE_LANE_BYTES);
    check(memcmp(text_in(record.at) + len, tag, 16) == 0, "the last output joins to the tag");
    for (int i = 0; i < 3; i++)
        check(memcmp(tag_shares.at + 16 * i, state_share(&output, i), 16) == 0,
              "the tag shares are the shares of the last output");
    printf("  outputs of %2lu calls for %3lu bytes, number %llu: the cipher's, the record's and those of the tag"
           " shares\n", (unsigned long)calls, (unsigned long)len, (unsigned long long)last + 1);
}

static void reports(void)
{
    key_links();
    report(0, 1, 1);
    report(32, 6, RASPPUCE_LAST_ROUND - 1);
    report(32, 6, RASPPUCE_LAST_ROUND);
    report_outputs(0, 0);
    report_outputs(40, most() - 1);
    report_outputs(RASPPUCE_MESSAGE_MOST, 0x0123456789abcdef >> (wide ? 0 : 32));
}

/* Both engines of the block cipher, there and back. */
static void blocks(void)
{
    fill(&key);
    fill(&block);
    check(rasppuce_encrypt_table(LEND(key), LEND(block), LEND(by_table)) == RASPPUCE_OK, "encrypting by table");
    check(rasppuce_encrypt_packed(LEND(key), LEND(block), LEND(by_words)) == RASPPUCE_OK, "encrypting by words");
    check(memcmp(by_table.at, by_words.at, 16) == 0, "both engines give the same block");
    check(rasppuce_decrypt_table(LEND(key), LEND(by_table), LEND(back)) == RASPPUCE_OK
          && memcmp(back.at, block.at, 16) == 0, "decrypting by table");
    mark(&back);
    check(rasppuce_decrypt_packed(LEND(key), LEND(by_table), LEND(back)) == RASPPUCE_OK
          && memcmp(back.at, block.at, 16) == 0, "decrypting by words");
    printf("  table and packed words agree, both ways\n");
}

/* ---- bodies of time marks */

/* A word of a body: its kind, and 28 bits. */
#define WORD(kind, field) ((uint32_t)(kind) << 28 | ((uint32_t)(field) & (RASPPUCE_FRACTION_END - 1)))

static void put_words(slice *s, const uint32_t *words, size_t count)
{
    fit(s, 4 * count);
    for (size_t i = 0; i < count; i++)
        put_number(s->at + 4 * i, words[i]);
}

/* Reads `body` into an output with so many spare bytes; its values have to be these. */
static void read_values(size_t spare, uint64_t seconds, uint32_t fraction, int has_offset, int32_t offset)
{
    fit_marked(&values, RASPPUCE_VALUES_BYTES + spare);
    check(rasppuce_read_body(LEND(body), LEND(values)) == RASPPUCE_OK, "reading a body");
    check(untouched(&values, RASPPUCE_VALUES_BYTES), "nothing is written past the values");
    check(number_at(values.at) == seconds >> 32 && number_at(values.at + 4) == (uint32_t)seconds,
          "the seconds");
    check(number_at(values.at + 8) == fraction, "the fraction");
    check(values.at[12] == has_offset && number_at(values.at + 13) == (has_offset ? (uint32_t)offset : 0),
          "the offset, or zeros");
}

/* A body that is written and read, into outputs with so many spare bytes. */
static void write_and_read(size_t spare, uint64_t seconds, uint32_t fraction, uint32_t has_offset,
                           int32_t offset)
{
    size_t len = RASPPUCE_BODY_BYTES(has_offset);
    fit_marked(&body, len + spare);
    check(rasppuce_write_body(seconds, fraction, has_offset, offset, LEND(body)) == RASPPUCE_OK,
          "writing a body");
    check(untouched(&body, len), "nothing is written past the body");
    check(number_at(body.at) == WORD(1, seconds >> 28) && number_at(body.at + 4) == WORD(2, seconds)
          && number_at(body.at + 8) == WORD(3, fraction), "the words of kinds 1, 2 and 3");
    check(!has_offset || number_at(body.at + 12) == WORD(4, offset), "the word of kind 4");
    fit(&body, len);
    read_values(spare, seconds, fraction, has_offset != 0, offset);
    printf("  body of %lu bytes, %llu seconds: written and read back\n", (unsigned long)len,
           (unsigned long long)seconds);
}

/* The longest body: skipped words of each kind from 5 to 15; among them 4, 3, 2 and 1, in that order. */
static void read_longest(void)
{
    enum { WORDS = RASPPUCE_BODY_MOST / 4 };
    uint32_t words[WORDS];
    for (uint32_t i = 0; i < WORDS; i++)
        words[i] = WORD(5 + i % 11, 0x5a5a5a5 * i);
    words[0] = WORD(4, -300);
    words[20] = WORD(3, 5);
    words[40] = WORD(2, 6);
    words[WORDS - 1] = WORD(1, 7);
    put_words(&body, words, WORDS);
    read_values(0, (uint64_t)7 << 28 | 6, 5, 1, -300);
    printf("  body of %lu bytes, words in another order, others skipped: read\n", (unsigned long)body.len);
}

static void bodies(void)
{
    const uint64_t last_second = RASPPUCE_SECONDS_END - 1;
    const uint32_t last_fraction = RASPPUCE_FRACTION_END - 1;
    write_and_read(0, 1772456709, RASPPUCE_FRACTION_END / 4, 1, 60);
    write_and_read(SPARE, 0, 0, 1, RASPPUCE_OFFSET_LEAST);
    write_and_read(SPARE, last_second, last_fraction, 1, RASPPUCE_OFFSET_MOST);
    write_and_read(0, last_second, 0, UINT32_MAX, 0); /* any number but 0 says that there is an offset */
    write_and_read(0, 0, last_fraction, 0, 0);
    write_and_read(SPARE, 1772456709, 0, 0, INT32_MIN); /* there is none, so this isn't looked at */
    read_longest();
}

/* ---- every refusal; `save` before the call, then `refused` */

enum { LAST_REFUSAL = RASPPUCE_BELOW_WINDOW };

static int met[LAST_REFUSAL + 1];

static int is_refusal(uint32_t number)
{
    return (RASPPUCE_KEYS <= number && number <= RASPPUCE_SEQUENCE)
        || (RASPPUCE_NOT_KEYED <= number && number <= RASPPUCE_REPEATED)
        || (RASPPUCE_BODY_LENGTH <= number && number <= RASPPUCE_BELOW_WINDOW);
}

static void refused(uint32_t answer, uint32_t expected, const char *how)
{
    check(answer == expected, how);
    if (answer <= LAST_REFUSAL)
        met[answer] = 1;
    check(all_as_saved(), "a refusal leaves every byte as it was");
    printf("  %2lu  %-46s %s\n", (unsigned long)answer, how, rasppuce_meaning(answer));
}

/* Those of blocks and bodies; the others are of links and plain sealing. */
static int is_of_no_link(uint32_t number)
{
    return number == RASPPUCE_BLOCK || (RASPPUCE_BODY_LENGTH <= number && number <= RASPPUCE_BODY_MISSING);
}

/* Makes `odd` so long, and saves every slice. */
static void save_odd(size_t len)
{
    fit_marked(&odd, len);
    save();
}

/* Numbers that are of no lane of an empty message's sealing, the first refusal of each, and how a log
 * would say it. */
typedef struct {
    uint32_t call, round, lane, answer;
    const char *how;
} no_lane;

static const no_lane no_lanes[] = {
    {0, 1, 0, RASPPUCE_CALL, "call 0"},
    {3, 1, 0, RASPPUCE_CALL, "call 3 of an empty message's sealing"},
    {1, 0, 0, RASPPUCE_ROUND, "round 0"},
    {1, RASPPUCE_LAST_ROUND + 1, 0, RASPPUCE_ROUND, "round 37"},
    {1, 1, RASPPUCE_LAST_LANE + 1, RASPPUCE_LANE, "lane 3"},
    {1, 1, UINT32_MAX, RASPPUCE_LANE, "lane 4294967295"},
    {3, RASPPUCE_LAST_ROUND + 1, 0, RASPPUCE_CALL, "call 3 and round 37"},
    {0, 1, RASPPUCE_LAST_LANE + 1, RASPPUCE_CALL, "call 0 and lane 3"},
    {2, 0, RASPPUCE_LAST_LANE + 1, RASPPUCE_ROUND, "round 0 and lane 3"},
    {3, RASPPUCE_LAST_ROUND + 1, UINT32_MAX, RASPPUCE_CALL, "call 3, round 37 and lane 4294967295"},
};

/* Words that make no body, the first refusal of each, and how a log would say it. */
typedef struct {
    uint32_t answer;
    const char *how;
    size_t count;
    uint32_t words[5];
} no_body;

static const no_body no_bodies[] = {
    {RASPPUCE_BODY_WORD, "a word of kind 0", 4, {WORD(1, 0), WORD(2, 0), WORD(3, 0), WORD(0, 1)}},
    {RASPPUCE_BODY_WORD, "kind 1 twice", 4, {WORD(1, 0), WORD(2, 0), WORD(3, 0), WORD(1, 0)}},
    {RASPPUCE_BODY_WORD, "kind 2 twice", 4, {WORD(1, 0), WORD(2, 0), WORD(2, 0), WORD(3, 0)}},
    {RASPPUCE_BODY_WORD, "kind 3 twice", 4, {WORD(3, 0), WORD(1, 0), WORD(3, 1), WORD(2, 0)}},
    {RASPPUCE_BODY_WORD, "kind 4 twice", 5, {WORD(1, 0), WORD(2, 0), WORD(3, 0), WORD(4, 0), WORD(4, 0)}},
    {RASPPUCE_BODY_WORD, "an offset of 841", 4, {WORD(1, 0), WORD(2, 0), WORD(3, 0), WORD(4, 841)}},
    {RASPPUCE_BODY_WORD, "an offset of -721", 4, {WORD(1, 0), WORD(2, 0), WORD(3, 0), WORD(4, -721)}},
    {RASPPUCE_BODY_WORD, "kind 0 where others are missing too", 1, {WORD(0, 0)}},
    {RASPPUCE_BODY_MISSING, "no kind 1", 3, {WORD(2, 0), WORD(3, 0), WORD(4, 0)}},
    {RASPPUCE_BODY_MISSING, "no kind 2", 3, {WORD(1, 0), WORD(3, 0), WORD(4, 0)}},
    {RASPPUCE_BODY_MISSING, "no kind 3", 3, {WORD(1, 0), WORD(2, 0), WORD(4, 0)}},
    {RASPPUCE_BODY_MISSING, "only skipped words", 2, {WORD(5, 0), WORD(15, 0)}},
};

/* What reading a body refuses, also where the output is too short besides. */
static void read_refusals(void)
{
    static const uint32_t sound[] = {WORD(1, 0), WORD(2, 0), WORD(3, 0)};
    fit_marked(&values, RASPPUCE_VALUES_BYTES);
    save();
    refused(rasppuce_read_body(NULL, 0, LEND(values)), RASPPUCE_BODY_LENGTH, "an empty body");
    save_odd(13);
    refused(rasppuce_read_body(LEND(odd), LEND(values)), RASPPUCE_BODY_LENGTH, "a body of 13 bytes");
    save_odd(RASPPUCE_BODY_MOST + 4);
    refused(rasppuce_read_body(LEND(odd), LEND(values)), RASPPUCE_BODY_LENGTH, "a body of 260 bytes");
    for (size_t i = 0; i < sizeof no_bodies / sizeof no_bodies[0]; i++) {
        const no_body *b = &no_bodies[i];
        put_words(&body, b->words, b->count);
        save();
        refused(rasppuce_read_body(LEND(body), LEND(values)), b->answer, b->how);
        check(rasppuce_read_body(LEND(body), NULL, 0) == b->answer, "the body's refusals come first");
    }
    put_words(&body, sound, 3);
    save_odd(RASPPUCE_VALUES_BYTES - 1);
    refused(rasppuce_read_body(LEND(body), LEND(odd)), RASPPUCE_OUTPUT, "16 bytes for the values");
    refused(rasppuce_read_body(LEND(body), NULL, 0), RASPPUCE_OUTPUT, "no bytes for the values");
}

/* What writing one refuses. */
static void write_refusals(void)
{
    fit_marked(&body, RASPPUCE_BODY_BYTES(1));
    save();
    refused(rasppuce_write_body(RASPPUCE_SECONDS_END, 0, 1, 0, LEND(body)), RASPPUCE_BODY_WORD,
            "2^56 seconds");
    refused(rasppuce_write_body(0, RASPPUCE_FRACTION_END, 0, 0, LEND(body)), RASPPUCE_BODY_WORD,
            "a fraction of 2^28");
    refused(rasppuce_write_body(0, 0, 1, RASPPUCE_OFFSET_MOST + 1, LEND(body)), RASPPUCE_BODY_WORD,
            "an offset of 841, to be written");
    refused(rasppuce_write_body(0, 0, 1, RASPPUCE_OFFSET_LEAST - 1, LEND(body)), RASPPUCE_BODY_WORD,
            "an offset of -721, to be written");
    refused(rasppuce_write_body(UINT64_MAX, 0, 0, 0, NULL, 0), RASPPUCE_BODY_WORD,
            "too many seconds, and no output");
    refused(rasppuce_write_body(0, 0, 0, 0, NULL, 0), RASPPUCE_OUTPUT, "no bytes for a body");
    save_odd(RASPPUCE_BODY_BYTES(1) - 1);
    refused(rasppuce_write_body(0, 0, 1, 0, LEND(odd)), RASPPUCE_OUTPUT, "15 bytes for a body with an offset");
    save_odd(RASPPUCE_BODY_BYTES(0) - 1);
    refused(rasppuce_write_body(0, 0, 0, 0, LEND(odd)), RASPPUCE_OUTPUT, "11 bytes for one without");
}

/* Records that a link refuses which has accepted 37 and 100, and the first refusal of each. */
typedef struct {
    uint32_t number;
    int damaged;
    uint32_t answer;
    const char *how;
} no_entry;

static const no_entry no_entries[] = {
    {0, 0, RASPPUCE_BELOW_WINDOW, "number 0"},
    {36, 0, RASPPUCE_BELOW_WINDOW, "a number 64 below the highest"},
    {36, 1, RASPPUCE_BELOW_WINDOW, "64 below, and a wrong tag"},
    {37, 0, RASPPUCE_REPEATED, "a number 63 below the highest, again"},
    {37, 1, RASPPUCE_REPEATED, "63 below, again, and a wrong tag"},
    {100, 0, RASPPUCE_REPEATED, "the highest number again"},
    {100, 1, RASPPUCE_REPEATED, "the highest again, and a wrong tag"},
    {38, 1, RASPPUCE_TAG, "a new number 62 below, and a wrong tag"},
    {164, 1, RASPPUCE_TAG, "64 above, and a wrong tag"},
};

/* What the window refuses, behind the refusals of another link and of a short output; all numbers but 0 so
 * many higher. */
static void window_refusals(uint64_t up)
{
    kept_record k;
    key_chosen();
    check(arrive_chosen(up + 37) == RASPPUCE_OK && arrive_chosen(up + 100) == RASPPUCE_OK, "opening 37 and 100");
    printf("      on a link whose highest number is %llu:\n", (unsigned long long)last_of(&plain_receiver));
    for (size_t i = 0; i < sizeof no_entries / sizeof no_entries[0]; i++) {
        const no_entry *n = &no_entries[i];
        keep_chosen(&k, n->number == 0 ? 0 : up + n->number);
        k.record[record_len_for(SHORT) - 1] ^= (uint8_t)n->damaged;
        lend_record(&k);
        refused(rasppuce_open(LEND(plain_receiver), LEND(record), LEND(opened)), n->answer, n->how);
        check(rasppuce_open(LEND(plain_receiver), LEND(record), NULL, 0) == RASPPUCE_OUTPUT
              && rasppuce_open(LEND(receiver), LEND(record), NULL, 0) == RASPPUCE_OTHER_LINK,
              "another link and a short output come first");
    }
    check(arrive_chosen(up + 38) == RASPPUCE_OK, "a wrong tag has not moved the window");

    /* No call leaves such a window, but on any bytes 0 is refused as such and not as repeated. */
    put_word(plain_receiver.at + LAST_AT, 5);
    memset(plain_receiver.at + WINDOW_AT, 0xff, 8);
    keep_chosen(&k, 0);
    lend_record(&k);
    refused(rasppuce_open(LEND(plain_receiver), LEND(record), LEND(opened)), RASPPUCE_BELOW_WINDOW,
            "number 0, whose bit is set");
}

/* Makes `odd` a link cut or lengthened to so many bytes; gives the words for a log. */
static const char *odd_link(const slice *link, const char *name, size_t len)
{
    static char how[64];
    fit_marked(&odd, len);
    memcpy(odd.at, link->at, len < link->len ? len : link->len);
    save();
    snprintf(how, sizeof how, "%s of %lu bytes", name, (unsigned long)len);
    return how;
}

/* Links of other lengths, 105 and 49 among them: keying refuses them as such, and they count as not keyed. */
static void length_refusals(void)
{
    static const size_t senders[] = {0, RASPPUCE_RECEIVER_BYTES, 105, RASPPUCE_SENDER_BYTES - 1,
                                     RASPPUCE_SENDER_BYTES + 1};
    static const size_t receivers[] = {0, 41, 49, RASPPUCE_RECEIVER_BYTES - 1, RASPPUCE_RECEIVER_BYTES + 1,
                                       RASPPUCE_SENDER_BYTES};
    for (size_t i = 0; i < sizeof senders / sizeof senders[0]; i++) {
        const char *how = odd_link(&sender, "a sender", senders[i]);
        refused(rasppuce_key_sender(LEND(odd), LINK, wide, LEND(key_shares)), RASPPUCE_KEYS, how);
        refused(rasppuce_seal(LEND(odd), LEND(message), LEND(tape), LEND(plain_record), LEND(tag_shares)),
                RASPPUCE_NOT_KEYED, how);
        refused(rasppuce_report(LEND(odd), LEND(message), LEND(tape), 1, 1, 0, LEND(lane)), RASPPUCE_NOT_KEYED, how);
    }
    for (size_t i = 0; i < sizeof receivers / sizeof receivers[0]; i++) {
        const char *how = odd_link(&receiver, "a receiver", receivers[i]);
        refused(rasppuce_key_receiver(LEND(odd), LINK, wide, LEND(keys)), RASPPUCE_KEYS, how);
        refused(rasppuce_open(LEND(odd), LEND(record), LEND(opened)), RASPPUCE_NOT_KEYED, how);
    }
}

/* Numbers that plain sealing refuses, at both widths or only told narrow. */
typedef struct {
    uint64_t number;
    const char *how;
} no_sequence;

static const no_sequence no_sequences[] = {
    {0, "sequence number 0"},
    {UINT32_MAX + (uint64_t)1, "sequence number 4294967296"},
    {0x0123456700000000, "sequence number 81985526906748928"},
    {UINT64_MAX, "sequence number 18446744073709551615"},
};

/* What plain sealing refuses: keys, then the number, then the message, then the output. */
static void plain_refusals(void)
{
    for (size_t i = 0; i < sizeof no_sequences / sizeof no_sequences[0]; i++) {
        const no_sequence *n = &no_sequences[i];
        if (0 < n->number && n->number <= most())
            continue;
        save_odd(RASPPUCE_MESSAGE_MOST + 1);
        refused(rasppuce_seal_plain(LEND(keys), LINK, wide, n->number, LEND(message), LEND(plain_record)),
                RASPPUCE_SEQUENCE, n->how);
        check(rasppuce_seal_plain(LEND(keys), LINK, wide, n->number, LEND(odd), NULL, 0) == RASPPUCE_SEQUENCE,
              "the number comes before message and output");
        check(rasppuce_seal_plain(LEND(key_shares), LINK, wide, n->number, LEND(odd), NULL, 0) == RASPPUCE_KEYS,
              "keys come before the number");
    }
    save_odd(RASPPUCE_MESSAGE_MOST + 1);
    refused(rasppuce_seal_plain(LEND(keys), LINK, wide, most(), LEND(odd), NULL, 0), RASPPUCE_MESSAGE,
            "a message of 257 bytes, plainly, and no output");
    save_odd(record_len_for(message.len) - 1);
    refused(rasppuce_seal_plain(LEND(keys), LINK, wide, most(), LEND(message), LEND(odd)), RASPPUCE_OUTPUT,
            "plainly, a record one byte too short");
}

/* What opening refuses in a record: its length, its link number, a bit changed behind that, the other width. */
static void record_refusals(void)
{
    const size_t adds = RASPPUCE_RECORD_ADDS(wide);
    save_odd(adds - 1);
    refused(rasppuce_open(LEND(receiver), LEND(odd), LEND(opened)), RASPPUCE_RECORD,
            "a record one byte shorter than any");
    save_odd(adds + RASPPUCE_MESSAGE_MOST + 1);
    refused(rasppuce_open(LEND(receiver), LEND(odd), LEND(opened)), RASPPUCE_RECORD,
            "a record one byte longer than any");

    record.at[3] ^= 1;
    save();
    refused(rasppuce_open(LEND(receiver), LEND(record), LEND(opened)), RASPPUCE_OTHER_LINK,
            "a record with another link number");
    record.at[3] ^= 1;

    for (size_t i = SEQUENCE_AT; i < record.len; i++) {
        record.at[i] ^= 0x20;
        save();
        check(rasppuce_open(LEND(receiver), LEND(record), LEND(opened)) == RASPPUCE_TAG && all_as_saved(),
              "the tag covers every byte");
        record.at[i] ^= 0x20;
    }
    record.at[record.len - RASPPUCE_TAG_BYTES - 1] ^= 0x20;
    save();
    refused(rasppuce_open(LEND(receiver), LEND(record), LEND(opened)), RASPPUCE_TAG,
            "a record with one bit changed");
    record.at[record.len - RASPPUCE_TAG_BYTES - 1] ^= 0x20;

    fit(&plain_record, message.len + RASPPUCE_RECORD_ADDS(!wide));
    check(rasppuce_seal_plain(LEND(keys), LINK, !wide, 1, LEND(message), LEND(plain_record)) == RASPPUCE_OK,
          "sealing plainly at the other width");
    fit_marked(&opened, plain_record.len);
    save();
    refused(rasppuce_open(LEND(receiver), LEND(plain_record), LEND(opened)),
            wide ? RASPPUCE_TAG : RASPPUCE_BELOW_WINDOW, "a record of the other width");
    fit_marked(&opened, message.len);
}

/* Of the refusals, just those of links and plain sealing were met, or just the others; a short output is of
 * both. */
static void check_met(int of_links)
{
    for (uint32_t i = 0; i <= LAST_REFUSAL; i++)
        check(met[i] == (is_refusal(i) && (i == RASPPUCE_OUTPUT || is_of_no_link(i) != of_links)),
              "every refusal was met, and no other number");
    memset(met, 0, sizeof met);
}

/* Every refusal of links and plain sealing. */
static void link_refusals(void)
{
    const size_t len = SHORT, record_len = record_len_for(len);
    key_links();

    /* A record that is still on the way. */
    prepare(len);
    fit(&record, record_len);
    check(rasppuce_seal(LEND(sender), LEND(message), LEND(tape), LEND(record), LEND(tag_shares)) == RASPPUCE_OK,
          "sealing once more");

    fit_marked(&plain_record, record_len);
    fit_marked(&opened, len);
    mark(&tag_shares);
    mark(&lane);
    save();
    refused(rasppuce_key_sender(LEND(sender), LINK, wide, LEND(keys)), RASPPUCE_KEYS,
            "keying a sender with 32 bytes");
    refused(rasppuce_key_receiver(LEND(receiver), LINK, wide, LEND(key_shares)), RASPPUCE_KEYS,
            "keying a receiver with 96 bytes");
    for (size_t i = 0; i < sizeof no_lanes / sizeof no_lanes[0]; i++) {
        const no_lane *l = &no_lanes[i];
        refused(rasppuce_report(LEND(sender), NULL, 0, LEND(tape), l->call, l->round, l->lane, LEND(lane)), l->answer,
                l->how);
    }
    refused(rasppuce_seal(LEND(fresh), LEND(message), LEND(tape), LEND(plain_record), LEND(tag_shares)),
            RASPPUCE_NOT_KEYED, "a fresh link, all zeros");
    length_refusals();
    plain_refusals();

    save_odd(257);
    refused(rasppuce_seal(LEND(sender), LEND(odd), LEND(tape), LEND(plain_record), LEND(tag_shares)),
            RASPPUCE_MESSAGE, "a message of 257 bytes");
    save_odd(2367);
    refused(rasppuce_seal(LEND(sender), NULL, 0, LEND(odd), LEND(plain_record), LEND(tag_shares)),
            RASPPUCE_TAPE, "an empty message with a tape of 2367");
    save_odd(record_len - 1);
    refused(rasppuce_seal(LEND(sender), LEND(message), LEND(tape), LEND(odd), LEND(tag_shares)),
            RASPPUCE_OUTPUT, "a record one byte too short");
    save_odd(51);
    refused(rasppuce_seal(LEND(sender), LEND(message), LEND(tape), LEND(plain_record), LEND(odd)),
            RASPPUCE_OUTPUT, "51 bytes for tag shares and count");
    record_refusals();

    check(rasppuce_open(LEND(receiver), LEND(record), LEND(opened)) == RASPPUCE_OK
          && memcmp(opened.at, message.at, len) == 0, "after all that the record is still accepted");
    mark(&opened);
    save();
    refused(rasppuce_open(LEND(receiver), LEND(record), LEND(opened)), RASPPUCE_REPEATED,
            "the same record again");
    window_refusals(0);
    if (most() > UINT32_MAX)
        window_refusals(UINT32_MAX - 63); /* with 2^32 in the window */
    window_refusals(most() - 164);

    use_up_to(most());
    save_odd(257);
    refused(rasppuce_seal(LEND(sender), LEND(message), LEND(tape), LEND(plain_record), LEND(tag_shares)),
            RASPPUCE_NUMBERS_USED, "a sender that has used its last number");
    refused(rasppuce_seal(LEND(sender), LEND(odd), LEND(tape), LEND(plain_record), LEND(tag_shares)),
            RASPPUCE_NUMBERS_USED, "such a sender, and a message of 257 bytes");
    refused(rasppuce_report(LEND(sender), LEND(odd), LEND(tape), 0, 0, 0, LEND(lane)),
            RASPPUCE_NUMBERS_USED, "a report of it, and a message of 257 bytes");
    check_met(1);
}

/* Those of blocks and bodies. */
static void other_refusals(void)
{
    mark(&back);
    save_odd(15);
    refused(rasppuce_encrypt_table(LEND(key), LEND(odd), LEND(back)), RASPPUCE_BLOCK,
            "a block of 15 bytes");
    read_refusals();
    write_refusals();
    check_met(0);
}

/* ---- links whose width and number the host puts in */

/* Whether such a link counts as keyed. */
static int counts_as_keyed(uint8_t width, uint64_t number)
{
    return width == 1 || (width == 0 && number <= UINT32_MAX);
}

/* Shows a lane and seals on such a sender; gives the answer. */
static uint32_t lend_sender(uint8_t width, uint64_t last)
{
    uint32_t expected = !counts_as_keyed(width, last) ? RASPPUCE_NOT_KEYED
        : last == most() ? RASPPUCE_NUMBERS_USED : RASPPUCE_OK;
    *width_of(&sender) = width;
    use_up_to(last);
    prepare(SHORT);
    fit_marked(&record, record_len_for(SHORT));
    mark(&tag_shares);
    mark(&lane);
    save();
    check(rasppuce_report(LEND(sender), LEND(message), LEND(tape), 1, 1, 0, LEND(lane)) == expected,
          "a report goes by the width and the number in the link");
    check(memcmp(sender.at, sender.saved, sender.len) == 0 && (expected == RASPPUCE_OK || all_as_saved()),
          "a report leaves the link alone, and if refused every byte");
    mark(&lane);
    uint32_t answer = rasppuce_seal(LEND(sender), LEND(message), LEND(tape), LEND(record), LEND(tag_shares));
    check(answer == expected, "sealing goes by the width and the number in the link");
    if (expected != RASPPUCE_OK) {
        check(all_as_saved(), "a refusal leaves every byte as it was");
        return answer;
    }
    fit(&plain_record, record.len);
    check(rasppuce_seal_plain(LEND(keys), LINK, wide, last + 1, LEND(message), LEND(plain_record)) == RASPPUCE_OK
          && memcmp(record.at, plain_record.at, record.len) == 0, "the record has that width and the next number");
    return answer;
}

/* Opens the next number on such a receiver, which has accepted none in its window; gives the answer. */
static uint32_t lend_receiver(uint8_t width, uint64_t highest)
{
    int keyed = counts_as_keyed(width, highest);
    uint64_t number = !keyed ? 1 : highest == most() ? most() - 1 : highest + 1;
    *width_of(&receiver) = width;
    put_word(receiver.at + LAST_AT, highest);
    prepare(SHORT);
    fit(&record, record_len_for(SHORT));
    check(rasppuce_seal_plain(LEND(keys), LINK, wide, number, LEND(message), LEND(record)) == RASPPUCE_OK,
          "sealing plainly");
    fit_marked(&opened, SHORT);
    save();
    uint32_t answer = rasppuce_open(LEND(receiver), LEND(record), LEND(opened));
    check(answer == (keyed ? RASPPUCE_OK : RASPPUCE_NOT_KEYED), "opening goes by the width and the number in the link");
    if (keyed)
        check(memcmp(opened.at, message.at, SHORT) == 0
              && last_of(&receiver) == (number > highest ? number : highest)
              && word_at(receiver.at + WINDOW_AT) == (number > highest ? 1 : 2), "the number is accepted");
    else
        check(all_as_saved(), "a refusal leaves every byte as it was");
    return answer;
}

/* Only 0 and 1 are widths, and a narrow link has no number above 4294967295. */
static void links_by_hand(void)
{
    static const uint8_t widths[] = {0, 1, 2, 3, 128, 255};
    static const uint64_t numbers[] = {0, UINT32_MAX - 1, UINT32_MAX, UINT32_MAX + (uint64_t)1, (uint64_t)1 << 63,
                                       UINT64_MAX - 1, UINT64_MAX};
    for (size_t i = 0; i < sizeof widths / sizeof widths[0]; i++) {
        wide = widths[i] != 0;
        printf("  width %3u, sealing and opening:", widths[i]);
        for (size_t j = 0; j < sizeof numbers / sizeof numbers[0]; j++) {
            key_links();
            uint32_t sealing = lend_sender(widths[i], numbers[j]);
            uint32_t opening = lend_receiver(widths[i], numbers[j]);
            printf("  %lu %lu", (unsigned long)sealing, (unsigned long)opening);
        }
        printf("\n");
    }
}

/* ---- what widths are told, and what they share */

/* Keying and plain sealing take 0 as narrow and any other number as wide. */
static void told_widths(void)
{
    static const uint32_t told[] = {0, 1, 2, 256, 0x80000000, UINT32_MAX};
    for (size_t i = 0; i < sizeof told / sizeof told[0]; i++) {
        wide = told[i];
        printf("  told %lu:\n", (unsigned long)wide);
        key_links();
        send(SHORT);
        check(*width_of(&sender) == (i > 0) && record.len == SHORT + (i > 0 ? 28 : 24),
              "0 is narrow, any other number wide");
        fit_marked(&plain_record, record.len);
        check(rasppuce_seal_plain(LEND(keys), LINK, wide, UINT32_MAX + (uint64_t)1, LEND(message), LEND(plain_record))
              == (i > 0 ? RASPPUCE_OK : RASPPUCE_SEQUENCE), "only told wide is there a number 4294967296");
    }
}

/* Under one key, a wide record is the narrow one of the same numbers with four zeros put in: so a link of
 * another width needs fresh keys. */
static void one_key_two_widths(void)
{
    wide = RASPPUCE_NARROW;
    key_links();
    use_up_to(0x01234566);
    send(24);
    fit(&record, plain_record.len + 4);
    memcpy(record.at, plain_record.at, SEQUENCE_AT);
    memset(record.at + SEQUENCE_AT, 0, 4);
    memcpy(record.at + SEQUENCE_AT + 4, plain_record.at + SEQUENCE_AT, plain_record.len - SEQUENCE_AT);
    fit_marked(&plain_record, record.len);
    check(rasppuce_seal_plain(LEND(keys), LINK, RASPPUCE_WIDE, 0x01234567, LEND(message), LEND(plain_record))
          == RASPPUCE_OK && memcmp(record.at, plain_record.at, record.len) == 0,
          "records of both widths have the same counter blocks");
    printf("  wide, under the same keys: the same key stream and tag\n");
}

/* ---- the whole */

static void play_links(void)
{
    printf("-- %s links\nkeying\n", wide ? "wide" : "narrow");
    key_links();
    printf("sealing and opening\n");
    send_all();
    printf("opening out of turn\n");
    out_of_turn();
    printf("reports\n");
    reports();
    printf("refusals\n");
    link_refusals();
}

static void play(void)
{
    set_up();
    for (wide = RASPPUCE_NARROW; wide <= RASPPUCE_WIDE; wide++)
        play_links();
    printf("-- either width\nlinks with a width and a number put in\n");
    links_by_hand();
    printf("widths told\n");
    told_widths();
    one_key_two_widths();
    printf("-- no link\nblock cipher\n");
    blocks();
    printf("bodies\n");
    bodies();
    printf("refusals\n");
    other_refusals();
    give_all_back();
}

/* Reads the byte at the edge of a slice, and the next one outside. */
static void step_outside(int behind)
{
    place = behind ? AT_END : AT_START;
    set_up();
    volatile uint8_t *edge = behind ? message.at + message.len - 1 : message.at;
    printf("inside: %d\n", edge[0]);
    printf("outside: %d\n", edge[behind ? 1 : -1]);
}

int main(int argc, char **argv)
{
    setvbuf(stdout, NULL, _IOLBF, BUFSIZ); /* so that a crash loses no line */
    if (argc > 1) {
        step_outside(strcmp(argv[1], "behind") == 0);
        return 0;
    }
    static const char *const places[PLACES] = {
        "after a page that can't be touched", "before a page that can't be touched", "at an odd address"};
    for (place = AT_START; place < PLACES; place++) {
        printf("---- every slice %s\n", places[place]);
        play();
    }
    return end_checks();
}
