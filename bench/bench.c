/*
 * Times the calls of librasppuce.a against the same steps in C (baseline.c), in one process.
 *
 * First both have to agree on random inputs (agree.c). Then the proved call and the C call of each row
 * run in turn, in many short runs; the best of each counts. What a call gives goes into the next: a
 * block call's output is the next input, a sealing's tag gives a byte of the next sequence number or
 * tape, and a body that is read or written one of the next. Opening takes the same record again, on the
 * link as it was.
 *
 * The second table and the plot (plot.c), whose file is the program's argument, show cost by length.
 *
 * A ratio over its budget is said in words below the tables. The exit status is 1 only where the
 * archive and C disagree, so that the whole table is printed whatever the machine is doing besides;
 * 2 where the plot can't be written.
 *
 * A further row is a line in `rows`. A call of another shape also needs one `measure` function.
 */
#define _POSIX_C_SOURCE 200809L
#include "baseline.h"
#include "bench.h"
#include "plot.h"
#include "rasppuce.h"

#include <stdio.h>
#include <stdlib.h>
#include <string.h>
#include <time.h>

enum {
    REPETITIONS = 600,       /* short runs of each call, of which the best counts */
    CURVE_REPETITIONS = 120, /* the same for each length of the second table and the plot */
    RUN_NS = 300000          /* about how long one of them takes */
};

/* The ratios to C that the project allows itself. */
#define PLAIN_BUDGET 1.10
#define SHARED_BUDGET 1.15

static double now_ns(void)
{
    struct timespec t;
    clock_gettime(CLOCK_MONOTONIC, &t);
    return (double)t.tv_sec * 1e9 + (double)t.tv_nsec;
}

/* ---- one run of each kind of call */

/* Any call; a measure function knows its true type. */
typedef void any_call(void);
#define ANY(call) ((any_call *)(call))

/* Nanoseconds of one call, from a run of `count` of them on `size` bytes each. */
typedef double measure(any_call *call, size_t size, int count);

enum { NUMBER = 7 }; /* the link number of every timed record */

static uint32_t wide; /* the width of every link and record in this run */

/* What the calls gave, so that no result goes unused. */
static volatile uint8_t sink;

/* Fixed bytes, of no pattern that matters. */
static void fill(uint8_t *bytes, size_t length)
{
    for (size_t i = 0; i < length; i++)
        bytes[i] = (uint8_t)(i * 167 + i / 256 + 13);
}

/* Every timed call has to be accepted: a refusal costs next to nothing, and no figure would be right. */
static void accepted(uint32_t answers)
{
    if (answers == RASPPUCE_OK)
        return;
    printf("a timed call was refused\n");
    exit(2);
}

/* Block calls: each output is the next input. `size` is 16. */
static double block_ns(any_call *call, size_t size, int count)
{
    block_call *block = (block_call *)call;
    uint8_t key[16], a[16], b[16];
    fill(key, 16);
    fill(a, 16);
    uint32_t answers = 0;
    double start = now_ns();
    for (int i = 0; i < count; i += 2) {
        answers |= block(key, size, a, size, b, size);
        answers |= block(key, size, b, size, a, size);
    }
    double end = now_ns();
    accepted(answers);
    sink = a[0];
    return (end - start) / count;
}

/* Plain sealing: a byte of each tag gives the next sequence number. */
static double seal_plain_ns(any_call *call, size_t size, int count)
{
    seal_plain_call *seal = (seal_plain_call *)call;
    uint8_t keys[RASPPUCE_RECEIVER_KEY_BYTES], message[RASPPUCE_MESSAGE_MOST], record[RASPPUCE_RECORD_MOST];
    size_t record_len = size + RASPPUCE_RECORD_ADDS(wide);
    fill(keys, sizeof keys);
    fill(message, sizeof message);
    uint32_t answers = 0;
    uint64_t sequence = 1;
    double start = now_ns();
    for (int i = 0; i < count; i++) {
        answers |= seal(keys, sizeof keys, NUMBER, wide, sequence, message, size, record, record_len);
        sequence = 1 + (uint64_t)record[record_len - 1];
    }
    double end = now_ns();
    accepted(answers);
    sink = record[record_len - 1];
    return (end - start) / count;
}

/* Opening: the link's 54 bytes are put back before each call, so that the same record is new again. */
static double open_ns(any_call *call, size_t size, int count)
{
    open_call *open = (open_call *)call;
    uint8_t keys[RASPPUCE_RECEIVER_KEY_BYTES], message[RASPPUCE_MESSAGE_MOST], record[RASPPUCE_RECORD_MOST];
    uint8_t keyed[RASPPUCE_RECEIVER_BYTES], link[RASPPUCE_RECEIVER_BYTES];
    size_t record_len = size + RASPPUCE_RECORD_ADDS(wide);
    fill(keys, sizeof keys);
    fill(message, sizeof message);
    accepted(rasppuce_key_receiver(keyed, sizeof keyed, NUMBER, wide, keys, sizeof keys));
    accepted(rasppuce_seal_plain(keys, sizeof keys, NUMBER, wide, 1, message, size, record, record_len));
    uint32_t answers = 0;
    double start = now_ns();
    for (int i = 0; i < count; i++) {
        memcpy(link, keyed, sizeof link);
        answers |= open(link, sizeof link, record, record_len, message, size);
    }
    double end = now_ns();
    accepted(answers);
    sink = link[12];
    return (end - start) / count;
}

/* Shared sealing: a byte of each tag goes into the next tape. */
static double seal_ns(any_call *call, size_t size, int count)
{
    seal_call *seal = (seal_call *)call;
    static uint8_t tape[RASPPUCE_TAPE_MOST];
    uint8_t keys[RASPPUCE_SENDER_KEY_BYTES], message[RASPPUCE_MESSAGE_MOST], record[RASPPUCE_RECORD_MOST];
    uint8_t link[RASPPUCE_SENDER_BYTES], shares[RASPPUCE_SHARES_BYTES];
    size_t record_len = size + RASPPUCE_RECORD_ADDS(wide);
    fill(keys, sizeof keys);
    fill(message, sizeof message);
    fill(tape, sizeof tape);
    accepted(rasppuce_key_sender(link, sizeof link, NUMBER, wide, keys, sizeof keys));
    uint32_t answers = 0;
    double start = now_ns();
    for (int i = 0; i < count; i++) {
        answers |= seal(link, sizeof link, message, size, tape, RASPPUCE_TAPE_BYTES(size), record, record_len,
                        shares, sizeof shares);
        tape[0] = record[record_len - 1];
    }
    double end = now_ns();
    accepted(answers);
    sink = shares[0];
    return (end - start) / count;
}

/* A body of `size` bytes: words of kinds 1 to 4, each a quarter behind the one before, the others skipped. */
static void fill_body(uint8_t *body, size_t size)
{
    static const uint8_t offset[] = {0x40, 0, 0, 60};
    fill(body, size);
    for (size_t i = 0; i < size; i += 4)
        body[i] = (uint8_t)((5 + i / 4 % 11) << 4);
    for (size_t kind = 1; kind < 4; kind++)
        body[(kind - 1) * size / 4] = (uint8_t)(kind << 4);
    memcpy(body + 3 * size / 4, offset, 4);
}

/* Reading a body: the next one has another fraction. */
static double read_body_ns(any_call *call, size_t size, int count)
{
    read_body_call *read = (read_body_call *)call;
    uint8_t body[RASPPUCE_BODY_MOST], values[RASPPUCE_VALUES_BYTES];
    fill_body(body, size);
    uint32_t answers = 0;
    double start = now_ns();
    for (int i = 0; i < count; i++) {
        answers |= read(body, size, values, sizeof values);
        body[size / 2 + 3] = (uint8_t)(values[11] + 1);
    }
    double end = now_ns();
    accepted(answers);
    sink = values[11];
    return (end - start) / count;
}

/* Writing a body: the next one is of another second. `size` is 16, with an offset. */
static double write_body_ns(any_call *call, size_t size, int count)
{
    write_body_call *write = (write_body_call *)call;
    uint8_t body[RASPPUCE_BODY_BYTES(1)];
    uint32_t answers = 0;
    uint64_t seconds = 1772456709;
    double start = now_ns();
    for (int i = 0; i < count; i++) {
        answers |= write(seconds, RASPPUCE_FRACTION_END / 4, 1, 60, body, size);
        seconds = 1772456709 + (uint64_t)body[7];
    }
    double end = now_ns();
    accepted(answers);
    sink = body[7];
    return (end - start) / count;
}

/* ---- the rows */

typedef struct {
    const char *name;
    measure *measure;
    any_call *proved;
    any_call *baseline;
    size_t size;
    uint32_t wide;
    double budget;          /* the ratio allowed; 0 for none */
    double ns, baseline_ns; /* the best run of each */
} row;

#define BLOCK_ROW(name, proved, baseline, budget) \
    {name, block_ns, ANY(proved), ANY(baseline), 16, 0, budget, 0, 0}
#define PLAIN_ROW(name, size, wide, budget) \
    {name, seal_plain_ns, ANY(rasppuce_seal_plain), ANY(baseline_seal_plain), size, wide, budget, 0, 0}
#define OPEN_ROW(name, size, wide, budget) \
    {name, open_ns, ANY(rasppuce_open), ANY(baseline_open), size, wide, budget, 0, 0}
#define SHARED_ROW(name, size, wide, budget) \
    {name, seal_ns, ANY(rasppuce_seal), ANY(baseline_seal), size, wide, budget, 0, 0}
#define READ_ROW(name, size) \
    {name, read_body_ns, ANY(rasppuce_read_body), ANY(baseline_read_body), size, 0, 0, 0, 0}
#define WRITE_ROW(name, size) \
    {name, write_body_ns, ANY(rasppuce_write_body), ANY(baseline_write_body), size, 0, 0, 0, 0}

static row rows[] = {
    BLOCK_ROW("encrypt packed", rasppuce_encrypt_packed, baseline_encrypt_packed, PLAIN_BUDGET),
    BLOCK_ROW("decrypt packed", rasppuce_decrypt_packed, baseline_decrypt_packed, PLAIN_BUDGET),
    BLOCK_ROW("encrypt table (C: packed)", rasppuce_encrypt_table, baseline_encrypt_packed, 0),
    BLOCK_ROW("decrypt table (C: packed)", rasppuce_decrypt_table, baseline_decrypt_packed, 0),
    PLAIN_ROW("plain seal of 16 bytes", 16, RASPPUCE_NARROW, 0),
    PLAIN_ROW("plain seal of 256 bytes", 256, RASPPUCE_NARROW, PLAIN_BUDGET),
    PLAIN_ROW("plain seal of 256 bytes, wide", 256, RASPPUCE_WIDE, PLAIN_BUDGET),
    OPEN_ROW("open 16 bytes", 16, RASPPUCE_NARROW, 0),
    OPEN_ROW("open 256 bytes", 256, RASPPUCE_NARROW, PLAIN_BUDGET),
    OPEN_ROW("open 256 bytes, wide", 256, RASPPUCE_WIDE, PLAIN_BUDGET),
    SHARED_ROW("shared seal of 16 bytes", 16, RASPPUCE_NARROW, SHARED_BUDGET),
    SHARED_ROW("shared seal of 256 bytes", 256, RASPPUCE_NARROW, SHARED_BUDGET),
    SHARED_ROW("shared seal of 256 bytes, wide", 256, RASPPUCE_WIDE, SHARED_BUDGET),
    READ_ROW("read body of 16 bytes", 16),
    READ_ROW("read body of 256 bytes", 256),
    WRITE_ROW("write body of 16 bytes", 16),
};

/* The second table and the plot: what calls cost by the length of the message, on narrow links. */

enum { LENGTHS = 10, PRINTED = 5 };

static const size_t lengths[LENGTHS] = {0, 16, 32, 64, 96, 128, 160, 192, 224, 256};
static const int printed[PRINTED] = {0, 1, 3, 5, 9}; /* which of them the table has */

typedef struct {
    const char *name;
    measure *measure;
    any_call *proved;
    any_call *baseline;
    double ns[LENGTHS], baseline_ns[LENGTHS]; /* the best run of each */
} curve;

static curve curves[] = {
    {"plain seal", seal_plain_ns, ANY(rasppuce_seal_plain), ANY(baseline_seal_plain), {0}, {0}},
    {"open", open_ns, ANY(rasppuce_open), ANY(baseline_open), {0}, {0}},
    {"shared seal", seal_ns, ANY(rasppuce_seal), ANY(baseline_seal), {0}, {0}},
};

enum { ROWS = sizeof rows / sizeof rows[0], CURVES = sizeof curves / sizeof curves[0] };

/* ---- the best of many runs */

/* Runs a call for about RUN_NS, an even number of times; `least`, the best run before it, is 0 for none. */
static void run(measure *timed, any_call *call, size_t size, double *least)
{
    double expected = *least > 0 ? *least : timed(call, size, 2);
    int count = (int)(RUN_NS / expected) & ~1;
    double ns = timed(call, size, count < 2 ? 2 : count);
    if (*least == 0 || ns < *least)
        *least = ns;
}

static void run_rows(void)
{
    for (int i = 0; i < ROWS; i++) {
        row *r = &rows[i];
        wide = r->wide;
        run(r->measure, r->proved, r->size, &r->ns);
        run(r->measure, r->baseline, r->size, &r->baseline_ns);
    }
}

static void run_curves(void)
{
    wide = RASPPUCE_NARROW;
    for (int i = 0; i < CURVES; i++)
        for (int j = 0; j < LENGTHS; j++) {
            curve *c = &curves[i];
            run(c->measure, c->proved, lengths[j], &c->ns[j]);
            run(c->measure, c->baseline, lengths[j], &c->baseline_ns[j]);
        }
}

static void run_all(void)
{
    for (int repetition = 0; repetition < REPETITIONS; repetition++) {
        run_rows();
        if (repetition % (REPETITIONS / CURVE_REPETITIONS) == 0)
            run_curves();
    }
}

/* ---- the tables */

/* To two decimals, as budgets are given. */
static double ratio(const row *r)
{
    return (int)(100 * r->ns / r->baseline_ns + 0.5) / 100.0;
}

static int is_over(const row *r)
{
    return r->budget != 0 && ratio(r) > r->budget + 0.001;
}

static void print_rows(void)
{
    printf("%-30s %10s %10s %8s %8s\n", "call", "ns a call", "ns of C", "ratio", "budget");
    for (int i = 0; i < ROWS; i++) {
        const row *r = &rows[i];
        printf("%-30s %10.1f %10.1f %8.2f", r->name, r->ns, r->baseline_ns, ratio(r));
        if (r->budget == 0)
            printf(" %8s\n", "-");
        else
            printf(" %8.2f%s\n", r->budget, is_over(r) ? "  over" : "");
    }
}

static void print_curve(const curve *c)
{
    printf("%-19s", c->name);
    for (int i = 0; i < PRINTED; i++)
        printf(" %9.0f", c->ns[printed[i]]);
    printf("\n%-19s", "  a byte");
    for (int i = 0; i < PRINTED; i++) {
        size_t length = lengths[printed[i]];
        if (length == 0)
            printf(" %9s", "-");
        else
            printf(" %9.1f", c->ns[printed[i]] / (double)length);
    }
    printf("\n");
}

static void print_curves(void)
{
    printf("\n%-19s", "ns, for a message of");
    for (int i = 0; i < PRINTED; i++)
        printf(" %*zu", i == 0 ? 8 : 9, lengths[printed[i]]);
    printf("  bytes\n");
    for (int i = 0; i < CURVES; i++)
        print_curve(&curves[i]);
}

static void print_budgets(void)
{
    int over = 0;
    printf("\nBest of %d short runs of each call; in the second table and the plot, of %d.\n",
           REPETITIONS, CURVE_REPETITIONS);
    for (int i = 0; i < ROWS; i++) {
        const row *r = &rows[i];
        if (!is_over(r))
            continue;
        over = 1;
        printf("%s: %.2f times C, over its budget of %.2f.\n", r->name, ratio(r), r->budget);
    }
    if (!over)
        printf("Every budget is kept.\n");
}

/* Writes the plot and says where it is. */
static int plot(const char *path)
{
    plot_curve lines[CURVES];
    for (int i = 0; i < CURVES; i++)
        lines[i] = (plot_curve){curves[i].name, curves[i].ns, curves[i].baseline_ns};
    int written = write_plot(path, lengths, LENGTHS, lines, CURVES);
    printf(written ? "Cost by length is drawn in %s.\n" : "The plot can't be written: %s\n", path);
    return written;
}

int main(int count, char **words)
{
    if (count != 2) {
        printf("Takes one word, the plot's file.\n");
        return 2;
    }
    printf("Budgets: the ratio to the same algorithm in C under gcc -O3, in the same run,\n"
           "that the project allows itself (docs/DECISIONS.md): %.2f for the packed engine,\n"
           "plain sealing and opening, %.2f for shared sealing.\n\n", PLAIN_BUDGET, SHARED_BUDGET);
    if (!all_agree())
        return 1;
    run_all();
    print_rows();
    print_curves();
    print_budgets();
    return plot(words[1]) ? 0 : 2;
}
