/*
 * Measures the stack of each call of librasppuce.a, and which secrets it leaves there.
 *
 * A call is made on a stack of its own, with messages of each length from 0 to 256, narrow and wide, or
 * bodies of 16 to 256 bytes, and for each length with several sets of random secrets. The stack is filled
 * with random bytes before, in two ways that have no byte in common, so that the lowest byte that the call
 * writes is seen whatever it writes.
 * A secret is left where a byte of that stack equals the same byte of it for every set of secrets.
 *
 * Prints a line for each call: its name, how many bytes below its return address it writes, and the
 * kinds of secrets it leaves, or '-'. Each call is also made with the recipe of rasppuce.h behind it,
 * which has to clear them. Exit status 1, with a sentence, where that or another requirement isn't met.
 */
#define _XOPEN_SOURCE 700
#include "bench.h"
#include "packed.h"
#include "random.h"
#include "rasppuce.h"
#include "recipe.h" /* wipe_stack, as rasppuce.h shows it: bench/sizes takes it from there */

#include <stdarg.h>
#include <stdio.h>
#include <stdlib.h>
#include <string.h>
#include <ucontext.h>

enum {
    SETS = 8,                        /* of secrets */
    DEEP = 4 * RASPPUCE_STACK_MOST,  /* bytes of the stack that a call is made on */
    SPARE = 256,                     /* of RASPPUCE_STACK_MOST: arguments, and the recipe's own frame */
    ROUND_UP = 1024,                 /* RASPPUCE_STACK_MOST is a multiple of it */
    NUMBER = 7,                      /* the link number */
    SEQUENCE = 1
};

static const char *built_with; /* the compiler flag that is said with each sentence */
static int failed;

/* Says what isn't met. */
static void complain(const char *format, ...)
{
    va_list values;
    fprintf(stderr, "%s: ", built_with);
    va_start(values, format);
    vfprintf(stderr, format, values);
    va_end(values);
    fputc('\n', stderr);
    failed = 1;
}

/* Ends where nothing more can be measured. */
static void require(int holds, const char *sentence)
{
    if (holds)
        return;
    complain("%s", sentence);
    exit(1);
}

/* ---- secrets */

typedef struct {
    uint8_t key_shares[RASPPUCE_SENDER_KEY_BYTES], keys[RASPPUCE_RECEIVER_KEY_BYTES];
    uint8_t message[RASPPUCE_MESSAGE_MOST], tape[RASPPUCE_TAPE_MOST];
    uint64_t seconds; /* a time mark */
    uint32_t fraction;
    int32_t offset;
    uint8_t body[RASPPUCE_BODY_MOST]; /* its body, with words to skip behind what is written */
} secrets;

static secrets sets[SETS];

static void xor_to(uint8_t *out, const uint8_t *a, const uint8_t *b, size_t len)
{
    for (size_t i = 0; i < len; i++)
        out[i] = a[i] ^ b[i];
}

enum { WRITTEN = RASPPUCE_BODY_BYTES(1) };

/* A time mark and its body. */
static void choose_mark(secrets *s)
{
    enum { LEAST = RASPPUCE_OFFSET_LEAST, MOST = RASPPUCE_OFFSET_MOST };
    s->seconds = random_number() % RASPPUCE_SECONDS_END;
    s->fraction = (uint32_t)(random_number() % RASPPUCE_FRACTION_END);
    s->offset = LEAST + (int32_t)(random_number() % (MOST - LEAST + 1));
    random_bytes(s->body, sizeof s->body);
    for (size_t i = WRITTEN; i < sizeof s->body; i += 4)
        s->body[i] |= 0x80;
    require(rasppuce_write_body(s->seconds, s->fraction, 1, s->offset, s->body, sizeof s->body) == RASPPUCE_OK,
            "Writing a body was refused.");
}

/* Key shares, the keys that they join to, a message, a tape and a time mark. */
static void choose(secrets *s)
{
    random_bytes(s->key_shares, sizeof s->key_shares);
    random_bytes(s->message, sizeof s->message);
    random_bytes(s->tape, sizeof s->tape);
    for (int i = 0; i < 2; i++) {
        const uint8_t *shares = s->key_shares + 48 * i;
        uint8_t *key = s->keys + 16 * i;
        xor_to(key, shares, shares + 16, 16);
        xor_to(key, key, shares + 32, 16);
    }
    choose_mark(s);
}

/* ---- the bytes that secrets stand in: as they are lent, and in packed words; keys in every rotation */

enum { KEYS, SHARES, MESSAGE, STREAM, KINDS };

static const char *const kind_names[KINDS] = {"keys", "key shares", "message", "key stream"};

enum { FORMS_MOST = 20000 };

static uint8_t forms[SETS][FORMS_MOST]; /* form i of each set of secrets is one byte */
static uint8_t kinds[FORMS_MOST];
static size_t form_count;

static void add_forms(int set, int kind, const void *bytes, size_t len)
{
    require(form_count + len <= FORMS_MOST, "FORMS_MOST is too small.");
    memcpy(forms[set] + form_count, bytes, len);
    memset(kinds + form_count, kind, len);
    form_count += len;
}

/* A block's bytes and its packed words. */
static void add_block(int set, int kind, packed block)
{
    uint8_t bytes[16];
    unpack(block, bytes);
    add_forms(set, kind, bytes, 16);
    add_forms(set, kind, block.w, 16);
}

/* A key or a share of one, before the first round and as each round adds it. */
static void add_key(int set, int kind, const uint8_t *key)
{
    packed k = pack(key);
    for (int round = 0; round <= ROUNDS; round++) {
        add_block(set, kind, k);
        k = rotate_key(k);
    }
}

/* The three shares of a key as they are lent, and as the first masks of the tape change them. */
static void add_shares(int set, const uint8_t *shares, const uint8_t *masks)
{
    uint8_t masked[48];
    xor_to(masked, shares, masks, 32);
    xor_to(masked + 32, shares + 32, masks, 16);
    xor_to(masked + 32, masked + 32, masks + 16, 16);
    for (int i = 0; i < 3; i++) {
        add_key(set, SHARES, shares + 16 * i);
        add_key(set, SHARES, masked + 16 * i);
    }
}

/* The message, and the key stream, which gives the message to whoever has the record; it is the same at
 * both widths. */
static void add_message(int set, const secrets *s)
{
    static const uint8_t zeros[RASPPUCE_MESSAGE_MOST];
    uint8_t record[RASPPUCE_RECORD_MOST];
    uint32_t answer = rasppuce_seal_plain(s->keys, sizeof s->keys, NUMBER, RASPPUCE_WIDE, SEQUENCE,
                                          zeros, sizeof zeros, record, sizeof record);
    require(answer == RASPPUCE_OK, "Sealing zeros was refused.");
    for (size_t i = 0; i < RASPPUCE_MESSAGE_MOST; i += 16) {
        add_block(set, MESSAGE, pack(s->message + i));
        add_block(set, STREAM, pack(record + 12 + i));
    }
}

/*
 * A time mark, which is a message too: the bytes of its seconds, and those of the words written, with their
 * kind and without. Only bytes that differ from set to set, since others would be found anywhere: not the
 * highest of the seconds, which is 0, nor the upper two of the offset, which have only its sign.
 */
static void add_mark(int set, const secrets *s)
{
    add_forms(set, MESSAGE, s->body, WRITTEN - 4);
    add_forms(set, MESSAGE, s->body + WRITTEN - 2, 2);
    for (int i = 0; i < WRITTEN - 4; i += 4) {
        uint8_t field = s->body[i] & 15;
        add_forms(set, MESSAGE, &field, 1);
    }
    add_forms(set, MESSAGE, &s->seconds, 7);
}

static void choose_all(void)
{
    for (int set = 0; set < SETS; set++) {
        secrets *s = &sets[set];
        choose(s);
        form_count = 0;
        for (int i = 0; i < 2; i++) {
            add_key(set, KEYS, s->keys + 16 * i);
            add_shares(set, s->key_shares + 48 * i, s->tape + 32 * i);
        }
        add_message(set, s);
        add_mark(set, s);
    }
}

/* Forms by their byte in the first set: those of byte b are in_order[starts[b]] to the next start. */
static size_t in_order[FORMS_MOST], starts[257];

static void order_forms(void)
{
    size_t count = 0;
    for (int byte = 0; byte < 256; byte++) {
        starts[byte] = count;
        for (size_t i = 0; i < form_count; i++)
            if (forms[0][i] == byte)
                in_order[count++] = i;
    }
    starts[256] = count;
}

/* ---- what is lent, and the calls: each is made by a function that then does what `after` is */

static const secrets *lent;
static uint8_t sender[RASPPUCE_SENDER_BYTES], receiver[RASPPUCE_RECEIVER_BYTES];
static uint8_t record[RASPPUCE_RECORD_MOST], opened[RASPPUCE_MESSAGE_MOST];
static uint8_t tag_shares[RASPPUCE_SHARES_BYTES], lane[RASPPUCE_LANE_BYTES];
static uint8_t plain_block[16], cipher_block[16];
static uint8_t body[RASPPUCE_BODY_BYTES(1)], values[RASPPUCE_VALUES_BYTES];
static size_t length; /* of the message */
static uint32_t wide; /* the width of the links and the record */

/* Keyed links, a record to open, and blocks, whatever a call wrote before. */
static void lend(const secrets *s)
{
    lent = s;
    memcpy(plain_block, s->message, 16);
    uint32_t answers = rasppuce_encrypt_table(s->keys, 16, plain_block, 16, cipher_block, 16);
    answers |= rasppuce_key_sender(sender, sizeof sender, NUMBER, wide, s->key_shares, sizeof s->key_shares);
    answers |= rasppuce_key_receiver(receiver, sizeof receiver, NUMBER, wide, s->keys, sizeof s->keys);
    answers |= rasppuce_seal_plain(s->keys, sizeof s->keys, NUMBER, wide, SEQUENCE, s->message, length,
                                   record, sizeof record);
    require(answers == RASPPUCE_OK, "A call before the measured one was refused.");
}

/* Any call; a function that makes it knows its true type. */
typedef void any_call(void);
typedef uint32_t key_call(uint8_t *link, size_t link_len, uint32_t number, uint32_t wide,
                          const uint8_t *keys, size_t keys_len);
typedef uint32_t report_call(const uint8_t *link, size_t link_len,
                             const uint8_t *message, size_t message_len,
                             const uint8_t *tape, size_t tape_len,
                             uint32_t call, uint32_t round, uint32_t lane,
                             uint8_t *out, size_t out_len);

static any_call *volatile call, *volatile after;
static volatile uint32_t answer;

static void make_key_sender(void)
{
    answer = ((key_call *)call)(sender, sizeof sender, NUMBER, wide, lent->key_shares, sizeof lent->key_shares);
    after();
}

static void make_key_receiver(void)
{
    answer = ((key_call *)call)(receiver, sizeof receiver, NUMBER, wide, lent->keys, sizeof lent->keys);
    after();
}

static void make_seal(void)
{
    answer = ((seal_call *)call)(sender, sizeof sender, lent->message, length, lent->tape, sizeof lent->tape,
                                 record, sizeof record, tag_shares, sizeof tag_shares);
    after();
}

static void make_open(void)
{
    answer = ((open_call *)call)(receiver, sizeof receiver, record, length + RASPPUCE_RECORD_ADDS(wide),
                                 opened, sizeof opened);
    after();
}

static void make_seal_plain(void)
{
    answer = ((seal_plain_call *)call)(lent->keys, sizeof lent->keys, NUMBER, wide, SEQUENCE,
                                       lent->message, length, record, sizeof record);
    after();
}

/* By turns: the first and the last call, the first and the last round, each lane. */
static void make_report(void)
{
    uint32_t size = (uint32_t)length;
    uint32_t shown = size & 1 ? RASPPUCE_CALLS(size) : 1;
    uint32_t round = size & 2 ? RASPPUCE_LAST_ROUND : 1;
    answer = ((report_call *)call)(sender, sizeof sender, lent->message, length,
                                   lent->tape, sizeof lent->tape, shown, round, size / 4 % 3,
                                   lane, sizeof lane);
    after();
}

/* By turns: each length from what is written to the longest. */
static void make_read_body(void)
{
    answer = ((read_body_call *)call)(lent->body, WRITTEN + length * 4 % (sizeof lent->body - WRITTEN + 4),
                                      values, sizeof values);
    after();
}

/* By turns: without an offset and with one. */
static void make_write_body(void)
{
    answer = ((write_body_call *)call)(lent->seconds, lent->fraction, length & 1, lent->offset,
                                       body, sizeof body);
    after();
}

static void make_encrypt(void)
{
    answer = ((block_call *)call)(lent->keys, 16, plain_block, 16, cipher_block, 16);
    after();
}

static void make_decrypt(void)
{
    answer = ((block_call *)call)(lent->keys, 16, cipher_block, 16, plain_block, 16);
    after();
}

typedef struct {
    const char *name;
    any_call *proved, *make;
} row;

#define ROW(name, make) {#name, (any_call *)name, make}

static const row rows[] = {
    ROW(rasppuce_key_sender, make_key_sender),
    ROW(rasppuce_key_receiver, make_key_receiver),
    ROW(rasppuce_seal, make_seal),
    ROW(rasppuce_open, make_open),
    ROW(rasppuce_seal_plain, make_seal_plain),
    ROW(rasppuce_report, make_report),
    ROW(rasppuce_read_body, make_read_body),
    ROW(rasppuce_write_body, make_write_body),
    ROW(rasppuce_encrypt_table, make_encrypt),
    ROW(rasppuce_decrypt_table, make_decrypt),
    ROW(rasppuce_encrypt_packed, make_encrypt),
    ROW(rasppuce_decrypt_packed, make_decrypt),
};

enum { ROWS = sizeof rows / sizeof rows[0] };

/* Does nothing, whatever it is called with. */
__attribute__((noinline)) static void nothing(void)
{
    __asm__ volatile("");
}

/* ---- a stack of its own */

static _Alignas(64) uint8_t stack[DEEP], fillings[2][DEEP];

/* Two fillings that differ in every byte. */
static void choose_fillings(void)
{
    random_bytes(fillings[0], DEEP);
    for (int i = 0; i < DEEP; i++)
        fillings[1][i] = (uint8_t)~fillings[0][i];
}

/* Makes a call on that stack, filled anew; gives how far down from its top it is changed. */
static size_t run(any_call *make, any_call *what, any_call *then, const uint8_t *filling)
{
    static ucontext_t here, there;
    memcpy(stack, filling, DEEP);
    call = what;
    after = then;
    require(getcontext(&there) == 0, "getcontext fails.");
    there.uc_stack.ss_sp = stack;
    there.uc_stack.ss_size = DEEP;
    there.uc_link = &here;
    makecontext(&there, make, 0);
    require(swapcontext(&here, &there) == 0, "swapcontext fails.");
    size_t unchanged = 0;
    while (unchanged < DEEP && stack[unchanged] == filling[unchanged])
        unchanged++;
    require(unchanged >= SPARE, "A call takes all of the stack that it is measured on.");
    return DEEP - unchanged;
}

static size_t larger(size_t a, size_t b)
{
    return a > b ? a : b;
}

/* How far down a call of nothing goes: the caller's part of the stack, with the return address. */
static size_t depth_of_caller(any_call *make)
{
    size_t first = run(make, nothing, nothing, fillings[0]);
    return larger(first, run(make, nothing, nothing, fillings[1]));
}

/* ---- what is found there */

static uint8_t seen[SETS][DEEP]; /* the stack after a call with each set of secrets */

typedef struct {
    size_t depth;
    unsigned left; /* bit k: secrets of kind k */
} finding;

/* Whether place `at` of the stack had form i of the secrets in every set. */
static int has_form(size_t at, size_t i)
{
    for (int set = 0; set < SETS; set++)
        if (seen[set][at] != forms[set][i])
            return 0;
    return 1;
}

/* The kinds of secrets in the last `depth` bytes of the stack. */
static unsigned kinds_seen(size_t depth)
{
    unsigned found = 0;
    for (size_t at = DEEP - depth; at < DEEP; at++) {
        uint8_t byte = seen[0][at];
        for (size_t k = starts[byte]; k < starts[byte + 1]; k++)
            if (has_form(at, in_order[k]))
                found |= 1u << kinds[in_order[k]];
    }
    return found;
}

/* Makes a call with every set of secrets, and `then` behind it. */
static finding look(const row *r, any_call *then)
{
    size_t depth = 0;
    for (int set = 0; set < SETS; set++) {
        lend(&sets[set]);
        depth = larger(depth, run(r->make, r->proved, then, fillings[set % 2]));
        require(answer == RASPPUCE_OK, "A measured call was refused.");
        memcpy(seen[set], stack, DEEP);
    }
    return (finding){depth, kinds_seen(depth)};
}

/* The same for each width and length: the deepest, and every kind that was left once. */
static finding look_at_all_lengths(const row *r, any_call *then)
{
    finding all = {0, 0};
    for (wide = RASPPUCE_NARROW; wide <= RASPPUCE_WIDE; wide++)
        for (length = 0; length <= RASPPUCE_MESSAGE_MOST; length++) {
            finding one = look(r, then);
            all.depth = larger(all.depth, one.depth);
            all.left |= one.left;
        }
    return all;
}

static const char *names_of(unsigned left)
{
    static char names[80];
    names[0] = 0;
    for (int kind = 0; kind < KINDS; kind++)
        if (left >> kind & 1) {
            strcat(names, names[0] ? ", " : "");
            strcat(names, kind_names[kind]);
        }
    return names[0] ? names : "-";
}

/* ---- the measure itself: a planted key has to be found, and a wipe that is too short */

enum { PLANTED = RASPPUCE_STACK_MOST - SPARE };

/* Leaves the key's first byte as deep as a call may go. */
__attribute__((noinline)) static void plant(void)
{
    volatile uint8_t room[PLANTED];
    room[0] = lent->keys[0];
    (void)room[0];
}

static void make_plant(void)
{
    call();
    answer = RASPPUCE_OK;
    after();
}

/* The recipe with half its bytes. */
__attribute__((noinline)) static void wipe_half(void)
{
    uint8_t room[RASPPUCE_STACK_MOST / 2];
    rasppuce_wipe(room, sizeof room);
}

static void test_the_measure(void)
{
    static const row planted = {"plant", plant, make_plant};
    finding found = look(&planted, nothing);
    size_t depth = found.depth - depth_of_caller(make_plant);
    require(found.left == 1u << KEYS, "The measure doesn't find a byte of a key on the stack.");
    require(depth >= PLANTED && depth < PLANTED + 32, "The measure doesn't see how deep a call goes.");
    require(look(&planted, wipe_half).left == 1u << KEYS, "The measure doesn't notice a short wipe.");
    require(look(&planted, wipe_stack).left == 0, "The recipe of rasppuce.h leaves a byte of a key.");
}

/* ---- what is required */

/* Wiped bytes are 0, and those behind them stay. */
static void test_wipe(void)
{
    uint8_t bytes[RASPPUCE_SENDER_BYTES + 1];
    for (size_t len = 0; len < sizeof bytes; len++) {
        memset(bytes, 0xa5, sizeof bytes);
        rasppuce_wipe(bytes, len);
        for (size_t i = 0; i < sizeof bytes; i++)
            require(bytes[i] == (i < len ? 0 : 0xa5), "rasppuce_wipe doesn't clear exactly its bytes.");
    }
}

/* The recipe clears what a call leaves. */
static void test_recipe(const row *r)
{
    finding found = look_at_all_lengths(r, wipe_stack);
    if (found.left != 0)
        complain("%s: the recipe of rasppuce.h leaves %s on the stack.", r->name, names_of(found.left));
}

/* The deepest call leaves room in RASPPUCE_STACK_MOST. */
static void test_most(size_t deepest)
{
    size_t right = ((deepest * 5 + 3) / 4 + ROUND_UP - 1) / ROUND_UP * ROUND_UP; /* a quarter more */
    if (deepest + SPARE > RASPPUCE_STACK_MOST)
        complain("The deepest call takes %zu bytes of stack: RASPPUCE_STACK_MOST is %u and should be %zu.",
                 deepest, RASPPUCE_STACK_MOST, right);
}

int main(int count, char **words)
{
    built_with = count > 1 ? words[1] : "sizes";
    choose_all();
    order_forms();
    choose_fillings();
    test_wipe();
    test_the_measure();
    size_t deepest = 0;
    for (int i = 0; i < ROWS; i++) {
        finding found = look_at_all_lengths(&rows[i], nothing);
        size_t depth = found.depth - depth_of_caller(rows[i].make);
        printf("%s %zu %s\n", rows[i].name, depth, names_of(found.left));
        deepest = larger(deepest, depth);
        test_recipe(&rows[i]);
    }
    test_most(deepest);
    return failed;
}
