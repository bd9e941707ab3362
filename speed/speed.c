/*
 * Plays the same inputs on the library and on both builds of the fast twin. First random layouts and calls, which are only compared; then the table: ns a
 * call of each, and the library's ratio to the faster build. Every answer, buffer and place is compared, in the timed runs too; a difference ends the program.
 */
#define _POSIX_C_SOURCE 199309L
#include "fast.h"

#include <stdio.h>
#include <stdlib.h>
#include <string.h>
#include <time.h>

/* ---- layouts */

static uint64_t seed;

static uint64_t random_below(uint64_t n)
{
    uint64_t z = seed += UINT64_C(0x9e3779b97f4a7c15);
    z = (z ^ z >> 30) * UINT64_C(0xbf58476d1ce4e5b9);
    z = (z ^ z >> 27) * UINT64_C(0x94d049bb133111eb);
    return (z ^ z >> 31) % n;
}

struct shape {
    const char *name;
    unsigned frames, bytes, messages, fields; /* bytes of a frame, fields of a message */
    enum { RECEIVED, SENT, BOTH } direction;  /* BOTH: the odd frames and messages are sent */
    enum { MIXED, PLAIN, EVENT } kind;        /* PLAIN: no filter and no status bit; EVENT: event frames, all messages with status bits */
    int floats;                               /* half of the messages are floats, where these fit */
};

struct layout {
    uint8_t file[4608];
    size_t length;
    int64_t low[32], high[32]; /* each message's least and greatest value */
    uint8_t is_float[32];
    uint32_t pool[4];          /* patterns that its floats often have */
    uint8_t big[32];           /* each frame's order */
    uint16_t start[32][32];    /* where a message's field lies in a frame, or NONE */
};

enum { NONE = 256 };

/* Without their signs: zero, subnormal floats, the least normal ones, about 1 and 2^24, where sums are ties, the greatest, infinity and NaNs. */
static const uint32_t edges[] = {
    0x00000000, 0x00000000, 0x00000001, 0x00000002, 0x00000003, 0x007fffff, 0x00800000, 0x00800001, 0x00ffffff, 0x33800000, 0x33800001,
    0x3f7fffff, 0x3f800000, 0x3f800001, 0x40490fdb, 0x4b7fffff, 0x4b800000, 0x4b800001, 0x72ffffff, 0x73000000, 0x7e800000, 0x7effffff,
    0x7f000000, 0x7f7ffffe, 0x7f7fffff, 0x7f7fffff, 0x7f800000, 0x7f800001, 0x7fbfffff, 0x7fc00000, 0x7fffffff,
};

static void put_record(struct layout *l, const uint8_t record[24])
{
    memcpy(l->file + l->length, record, 24);
    l->length += 24;
}

static void put_word(uint8_t *p, int64_t value)
{
    for (int k = 0; k < 4; k++)
        p[k] = (uint8_t)((uint64_t)value >> 8 * k);
}

static void fill_pool(struct layout *l)
{
    for (int k = 0; k < 4; k++)
        l->pool[k] = edges[random_below(sizeof edges / sizeof edges[0])] | (uint32_t)random_below(2) << 31;
}

/* A float of the pool or beside it, or any. */
static int64_t random_float(const struct layout *l)
{
    uint32_t pattern = l->pool[random_below(4)];

    switch (random_below(8)) {
    case 0: return (int64_t)random_below(UINT64_C(1) << 32);
    case 1: return pattern ^ 0x80000000;
    case 2: return pattern ^ 1;
    default: return pattern;
    }
}

static int64_t made_finite(int64_t pattern)
{
    return (pattern & 0x7f800000) == 0x7f800000 ? pattern ^ 0x00800000 : pattern;
}

static int64_t random_value(const struct layout *l, unsigned m)
{
    if (l->is_float[m])
        return random_float(l);
    return l->low[m] + (int64_t)random_below((uint64_t)(l->high[m] - l->low[m]) + 1);
}

/* For a layout: of a float a finite one. */
static int64_t random_word(const struct layout *l, unsigned m)
{
    int64_t value = random_value(l, m);
    return l->is_float[m] ? made_finite(value) : value;
}

/* A layout of that shape: a message's fields lie evenly in the frames; widths, orders, filters and gaps are random, and all fits. */
static void write_layout(struct layout *l, const struct shape *s)
{
    unsigned apart = s->frames / s->fields;
    unsigned in_frame = (s->messages + apart - 1) / apart;
    unsigned widest = s->bytes * 8 / in_frame - 3;
    unsigned width[32], status[32], used[32] = {0};

    l->length = 0;
    if (s->floats)
        fill_pool(l);
    for (unsigned f = 0; f < s->frames; f++) {
        unsigned sent = s->direction == BOTH ? f % 2 : s->direction == SENT;
        l->big[f] = random_below(2);
        uint8_t r[24] = {1, f, s->bytes, l->big[f], sent, s->kind == EVENT};
        put_record(l, r);
    }
    for (unsigned m = 0; m < s->messages; m++) {
        unsigned sent = s->direction == BOTH ? m % 2 : s->direction == SENT;
        width[m] = 1 + random_below(widest < 32 ? widest : 32);
        status[m] = s->kind == MIXED ? random_below(2) : s->kind == EVENT;
        unsigned sign = random_below(2);
        unsigned filter = s->kind == PLAIN || (sent && !status[m]) ? 0 : random_below(14);
        l->is_float[m] = s->floats && widest >= 32 && random_below(2);
        if (l->is_float[m]) {
            width[m] = 32;
            sign = 2;
            if (filter == 2 || filter == 3 || filter == 6 || filter == 7)
                filter += 6; /* no masks */
        }
        uint8_t r[24] = {2, m, width[m], sign, sent, sent ? 0 : random_below(3), filter};
        l->low[m] = sign == 1 ? -(INT64_C(1) << (width[m] - 1)) : 0;
        l->high[m] = l->low[m] + (INT64_C(1) << width[m]) - 1;
        if (filter == 2 || filter == 3 || (6 <= filter && filter <= 9))
            put_word(r + 8, random_word(l, m));
        if (filter == 2 || filter == 3 || filter == 8 || filter == 9)
            put_word(r + 12, random_word(l, m));
        put_word(r + 16, random_word(l, m));
        put_record(l, r);
    }
    for (unsigned m = 0; m < s->messages; m++)
        for (unsigned f = 0; f < s->frames; f++) {
            l->start[m][f] = NONE;
            if (f % apart != m % apart)
                continue;
            unsigned start = l->start[m][f] = used[f] + random_below(3);
            used[f] = start + width[m] + status[m];
            uint8_t r[24] = {3, m, f, start, status[m], status[m] ? start + width[m] : 0};
            put_record(l, r);
        }
}

/* Puts 32 bits where the frame's order has them. */
static void put_bits(uint8_t *data, int big, unsigned start, uint32_t pattern)
{
    for (unsigned j = 0; j < 32; j++) {
        unsigned i = big ? start + 31 - j : start + j;
        unsigned bit = 1u << (big ? 7 - i % 8 : i % 8);
        data[i / 8] = (uint8_t)(pattern >> j & 1 ? data[i / 8] | bit : data[i / 8] & ~bit);
    }
}

/* Puts random floats into those fields of the frame that carry floats. */
static void put_floats(const struct layout *l, const struct shape *s, unsigned f, uint8_t *data)
{
    for (unsigned m = 0; m < s->messages; m++)
        if (l->is_float[m] && l->start[m][f] != NONE)
            put_bits(data, l->big[f], l->start[m][f], (uint32_t)random_float(l));
}

/* ---- the three sides */

/* What a call takes, and the places that it writes. */
struct input {
    uint64_t number; /* of the message or frame */
    int64_t value;
    size_t length;
    const uint8_t *file;
    uint8_t valid, flag, data[32];
};

enum call { LOAD, SEND, INVALIDATE, ASSEMBLE, CONSUMED, READ_FLAG, DELIVER, CLOSE, RECEIVE, CALLS };

static const char *const names[CALLS] = {"load", "send", "invalidate", "assemble", "consumed", "read_flag", "deliver", "close", "receive"};

enum { NODES = 16, INPUTS = 64, REPEATS = 400 };

/* Plays the inputs on each node, and answers the sum of the answers. */
typedef uint64_t play(void *nodes, size_t count, struct input *inputs, size_t n);

#define PLAY(side, name, call)                                                                   \
    static uint64_t side##_play_##name(void *nodes, size_t count, struct input *inputs, size_t n) \
    {                                                                                            \
        uint64_t sum = 0;                                                                        \
        for (side##_node *node = nodes, *end = node + count; node < end; node++)                 \
            for (struct input *i = inputs; i < inputs + n; i++)                                  \
                sum += call;                                                                     \
        return sum;                                                                              \
    }

#define SIDE(side)                                                                                                                     \
    PLAY(side, load, side##_load(node, i->file, i->length))                                                                            \
    PLAY(side, send, side##_send(node, i->number, i->value))                                                                           \
    PLAY(side, invalidate, side##_invalidate(node, i->number))                                                                         \
    PLAY(side, assemble, side##_assemble(node, i->number, i->data, i->length))                                                         \
    PLAY(side, consumed, side##_consumed(node, i->number))                                                                             \
    PLAY(side, read_flag, side##_read_flag(node, i->number, &i->flag))                                                                 \
    PLAY(side, deliver, side##_deliver(node, i->number, i->valid, i->data, i->length))                                                 \
    PLAY(side, close, side##_close(node))                                                                                              \
    PLAY(side, receive, side##_receive(node, i->number, &i->value))                                                                    \
    static side##_node side##_start, side##_nodes[NODES];                                                                              \
    static play *const side##_plays[CALLS] = {side##_play_load,     side##_play_send,      side##_play_invalidate, side##_play_assemble, \
                                              side##_play_consumed, side##_play_read_flag, side##_play_deliver,    side##_play_close,    \
                                              side##_play_receive};

FAST_CALLS(gcc)
FAST_CALLS(clang)
typedef fast_node gcc_node, clang_node;

SIDE(mondgurt)
SIDE(gcc)
SIDE(clang)

enum { LIBRARY, GCC, CLANG, SIDES };

/* start is the node that the calls so far have led to; nodes are copies of it for the timed runs. */
static struct side {
    play *const *plays;
    void *start, *nodes;
    size_t size;
    struct input inputs[INPUTS];
    double ns[REPEATS];
} sides[SIDES] = {
    [LIBRARY] = {.plays = mondgurt_plays, .start = &mondgurt_start, .nodes = mondgurt_nodes, .size = sizeof mondgurt_start},
    [GCC] = {.plays = gcc_plays, .start = &gcc_start, .nodes = gcc_nodes, .size = sizeof gcc_start},
    [CLANG] = {.plays = clang_plays, .start = &clang_start, .nodes = clang_nodes, .size = sizeof clang_start},
};

/* The inputs of the next calls; the sides play on copies. */
static struct input inputs[INPUTS];

static void differ(enum call call)
{
    fprintf(stderr, "the library and the fast twin differ in %s\n", names[call]);
    exit(1);
}

/* Each side has played the first n inputs, with these sums of the answers. */
static void compare_sides(enum call call, const uint64_t sum[SIDES], size_t n)
{
    for (int k = GCC; k < SIDES; k++)
        if (sum[k] != sum[LIBRARY] || memcmp(sides[k].inputs, sides[LIBRARY].inputs, n * sizeof inputs[0]) != 0)
            differ(call);
}

/* Plays the inputs on all start nodes, and answers the sum of the answers. */
static uint64_t all(enum call call, size_t n)
{
    uint64_t sum[SIDES];

    for (int k = 0; k < SIDES; k++) {
        memcpy(sides[k].inputs, inputs, n * sizeof inputs[0]);
        sum[k] = sides[k].plays[call](sides[k].start, 1, sides[k].inputs, n);
    }
    compare_sides(call, sum, n);
    return sum[LIBRARY];
}

/* ---- comparing */

static struct input random_input(const struct layout *l, const struct shape *s)
{
    unsigned m = random_below(s->messages);
    struct input in = {.number = m, .value = random_value(l, m), .length = s->bytes, .valid = random_below(8) > 0};

    for (int k = 0; k < 32; k++)
        in.data[k] = random_below(4) ? random_below(256) : 255;
    if (random_below(2))
        in.number = random_below(s->frames + 1);
    if (s->floats && in.number < s->frames)
        put_floats(l, s, (unsigned)in.number, in.data);
    if (!random_below(8))
        in.length = random_below(33);
    if (!random_below(8))
        in.value = (int64_t)random_below(UINT64_MAX);
    return in;
}

static struct shape random_shape(void)
{
    struct shape s = {.direction = random_below(3), .kind = random_below(3), .floats = random_below(2)};

    s.fields = 1 + random_below(8);
    unsigned apart = 2 * (1 + random_below(16 / s.fields));
    s.frames = apart * s.fields;
    s.messages = 1 + random_below(128 / s.fields < 32 ? 128 / s.fields : 32);
    unsigned in_frame = (s.messages + apart - 1) / apart;
    unsigned bits = s.floats && in_frame * 35 <= 256 ? 35 : 4; /* so that floats fit */
    unsigned least = (in_frame * bits + 7) / 8;
    s.bytes = least + random_below(33 - least);
    return s;
}

/* Any call; where there are received frames, deliveries more often, so that several instances of a message count. */
static enum call random_call(const struct shape *s)
{
    return s->direction != SENT && random_below(2) ? DELIVER : SEND + random_below(CALLS - SEND);
}

/* Random layouts, calls on each, and each file again with one byte changed. */
static void compare(unsigned layouts, unsigned calls)
{
    static struct layout l;
    unsigned seen[256] = {0}, floats[256] = {0}, refused[MONDGURT_WIDTH + 1] = {0};

    for (unsigned k = 0; k < layouts; k++) {
        struct shape s = random_shape();
        write_layout(&l, &s);
        inputs[0] = (struct input){.file = l.file, .length = l.length};
        if (all(LOAD, 1) != 0)
            differ(LOAD);
        for (unsigned c = 0; c < calls; c++) {
            inputs[0] = random_input(&l, &s);
            enum call call = random_call(&s);
            uint64_t answer = all(call, 1);
            seen[answer]++;
            if (call == RECEIVE && inputs[0].number < s.messages && l.is_float[inputs[0].number])
                floats[answer]++;
        }
        l.file[random_below(l.length)] ^= 1 << random_below(8);
        inputs[0] = (struct input){.file = l.file, .length = random_below(8) ? l.length : random_below(l.length)};
        refused[MONDGURT_REFUSAL(all(LOAD, 1))]++;
    }
    printf("%u layouts, %u calls: no difference.\nAnswers 0 and 16 to 23:", layouts, layouts * calls);
    for (unsigned answer = 0; answer < 24; answer += answer ? 1 : 16)
        printf(" %u", seen[answer]);
    printf("\nReceived floats, answers 0, 20, 21 and 22: %u %u %u %u", floats[0], floats[20], floats[21], floats[22]);
    printf("\nA byte changed, accepted and refusals 1 to 10:");
    for (unsigned refusal = 0; refusal <= MONDGURT_WIDTH; refusal++)
        printf(" %u", refused[refusal]);
    printf("\n\n");
}

/* ---- timing */

static double now_ns(void)
{
    struct timespec t;

    clock_gettime(CLOCK_MONOTONIC, &t);
    return 1e9 * (double)t.tv_sec + (double)t.tv_nsec;
}

static int by_size(const void *a, const void *b)
{
    double x = *(const double *)a, y = *(const double *)b;
    return (x > y) - (x < y);
}

/* The mean of the fastest tenth, so that a run that another program interrupted does not count. */
static double undisturbed(double *ns)
{
    double sum = 0;

    qsort(ns, REPEATS, sizeof ns[0], by_size);
    for (int k = 0; k < REPEATS / 10; k++)
        sum += ns[k];
    return sum / (REPEATS / 10);
}

/* Plays the inputs on copies of the start nodes, the sides in turn, and takes the time. */
static void repeat(enum call call, size_t nodes, size_t n)
{
    uint64_t sum[SIDES];

    for (int r = 0; r < REPEATS; r++) {
        for (int k = 0; k < SIDES; k++) {
            struct side *s = &sides[(k + r) % SIDES];
            for (size_t i = 0; i < nodes; i++)
                memcpy((uint8_t *)s->nodes + i * s->size, s->start, s->size);
            memcpy(s->inputs, inputs, sizeof inputs);
            double began = now_ns();
            sum[(k + r) % SIDES] = s->plays[call](s->nodes, nodes, s->inputs, n);
            s->ns[r] = now_ns() - began;
        }
        compare_sides(call, sum, INPUTS);
    }
}

static void row(enum call call, const char *what, size_t n)
{
    size_t nodes = call == LOAD ? 2 : NODES; /* a loading is long */
    double empty[SIDES], ns[SIDES];

    repeat(call, nodes, 0);
    for (int k = 0; k < SIDES; k++)
        empty[k] = undisturbed(sides[k].ns);
    repeat(call, nodes, n);
    for (int k = 0; k < SIDES; k++)
        ns[k] = (undisturbed(sides[k].ns) - empty[k]) / (double)(nodes * n);
    double faster = ns[GCC] < ns[CLANG] ? ns[GCC] : ns[CLANG];
    printf("| %s | %s | %.1f | %.1f | %.1f | %.2f |\n", names[call], what, ns[LIBRARY], ns[GCC], ns[CLANG], ns[LIBRARY] / faster);
}

/* ---- the rows */

static struct layout layout;

static void load_file(void)
{
    inputs[0] = (struct input){.file = layout.file, .length = layout.length};
    if (all(LOAD, 1) != 0)
        differ(LOAD);
}

static void load(const struct shape *s)
{
    seed = 1;
    write_layout(&layout, s);
    load_file();
}

/* An input for each message, with a value of its range. */
static size_t each_message(const struct shape *s)
{
    for (unsigned m = 0; m < s->messages; m++)
        inputs[m] = (struct input){.number = m, .value = random_value(&layout, m)};
    return s->messages;
}

/* An input for each frame, with the same byte everywhere: fields of a message then agree. */
static size_t each_frame(const struct shape *s, uint8_t byte)
{
    for (unsigned f = 0; f < s->frames; f++) {
        inputs[f] = (struct input){.number = f, .length = s->bytes, .valid = 1};
        memset(inputs[f].data, byte, sizeof inputs[f].data);
    }
    return s->frames;
}

static void sending_rows(struct shape s)
{
    s.direction = SENT;
    load(&s);
    row(LOAD, s.name, 1);
    row(SEND, s.name, each_message(&s));
    all(SEND, s.messages);
    row(READ_FLAG, s.name, s.messages);
    row(ASSEMBLE, s.name, each_frame(&s, 0));
    all(ASSEMBLE, s.frames);
    row(CONSUMED, s.name, s.frames);
    s.kind = EVENT;
    load(&s);
    row(INVALIDATE, s.name, each_message(&s));
}

static void receiving_rows(struct shape s)
{
    s.direction = RECEIVED;
    load(&s);
    row(DELIVER, s.name, each_frame(&s, 255));
    all(DELIVER, s.frames);
    row(CLOSE, s.name, 1);
    all(CLOSE, 1);
    row(RECEIVE, s.name, each_message(&s));
}

/* A row of calls that all give that answer; add moves their numbers, as out of the layout. */
static void refusal_row(enum call call, const char *what, size_t n, uint64_t add, uint64_t answer)
{
    for (size_t i = 0; i < n; i++)
        inputs[i].number += add;
    if (all(call, n) != n * answer)
        differ(call);
    row(call, what, n);
}

static void refusal_rows(struct shape s)
{
    s.direction = SENT;
    s.kind = PLAIN;
    load(&s);
    refusal_row(SEND, "16", each_message(&s), 32, MONDGURT_ID);
    for (size_t i = each_message(&s); i-- > 0;)
        inputs[i].value = layout.high[i] + 1;
    refusal_row(SEND, "18", s.messages, 0, MONDGURT_VALUE);
    refusal_row(INVALIDATE, "16", each_message(&s), 32, MONDGURT_ID);
    refusal_row(INVALIDATE, "19", each_message(&s), 0, MONDGURT_NOFUNC);
    refusal_row(READ_FLAG, "16, number", each_message(&s), 32, MONDGURT_ID);
    refusal_row(ASSEMBLE, "16", each_frame(&s, 0), 32, MONDGURT_ID);
    for (size_t i = each_frame(&s, 0); i-- > 0;)
        inputs[i].length--;
    refusal_row(ASSEMBLE, "18", s.frames, 0, MONDGURT_VALUE);
    refusal_row(CONSUMED, "16", each_frame(&s, 0), 32, MONDGURT_ID);
    refusal_row(DELIVER, "17", each_frame(&s, 0), 0, MONDGURT_ACCESS);
    refusal_row(RECEIVE, "17", each_message(&s), 0, MONDGURT_ACCESS);

    s.kind = EVENT;
    load(&s);
    refusal_row(ASSEMBLE, "23", each_frame(&s, 0), 0, MONDGURT_SUPPRESSED);

    s.direction = RECEIVED;
    load(&s);
    refusal_row(SEND, "17", each_message(&s), 0, MONDGURT_ACCESS);
    refusal_row(INVALIDATE, "17", each_message(&s), 0, MONDGURT_ACCESS);
    refusal_row(READ_FLAG, "16, received", each_message(&s), 0, MONDGURT_ID);
    refusal_row(ASSEMBLE, "17", each_frame(&s, 0), 0, MONDGURT_ACCESS);
    refusal_row(CONSUMED, "17", each_frame(&s, 0), 0, MONDGURT_ACCESS);
    refusal_row(DELIVER, "16", each_frame(&s, 0), 32, MONDGURT_ID);
    for (size_t i = each_frame(&s, 0); i-- > 0;)
        inputs[i].length--;
    refusal_row(DELIVER, "18", s.frames, 0, MONDGURT_VALUE);
    for (size_t i = each_frame(&s, 0); i-- > 0;)
        inputs[i].valid = 0;
    refusal_row(DELIVER, "0, invalid status", s.frames, 0, MONDGURT_OK);
    refusal_row(RECEIVE, "16", each_message(&s), 32, MONDGURT_ID);
    refusal_row(RECEIVE, "21", each_message(&s), 0, MONDGURT_NOT_RECEIVED);

    for (size_t i = 0; i < INPUTS; i++)
        inputs[i] = (struct input){.file = layout.file, .length = layout.length - 1};
    refusal_row(LOAD, "1", INPUTS, 0, MONDGURT_SIZE);
    layout.file[layout.length - 21] = 255;
    inputs[0].length = layout.length;
    refusal_row(LOAD, "6, last record", 1, 0, MONDGURT_PLACE + 256 * (layout.length / 24 - 1));
}

/* Closings of the largest layout whose instances differ, are invalid, or did not come. */
static void closing_rows(struct shape s)
{
    s.direction = RECEIVED;
    load(&s);
    row(CLOSE, "nothing delivered", 1);
    s.kind = EVENT;
    load(&s);
    all(DELIVER, each_frame(&s, 0));
    row(CLOSE, "no instance counts", 1);
    s.kind = PLAIN;
    load(&s);
    for (size_t i = each_frame(&s, 0); i-- > 0;)
        for (int k = 0; k < 32; k++)
            inputs[i].data[k] = random_below(256);
    all(DELIVER, s.frames);
    row(CLOSE, "instances differ", 1);
}

/* Closings of 16 messages with 8 fields each of 32 bits, all byte-aligned and of little order; seven of eight replicas of a message are equal. */
static void aligned_row(const char *what, unsigned sign, unsigned agreement)
{
    const struct shape s = {.name = what, .frames = 16, .bytes = 32, .messages = 16, .fields = 8};

    layout.length = 0;
    for (unsigned f = 0; f < s.frames; f++) {
        uint8_t r[24] = {1, f, s.bytes};
        put_record(&layout, r);
    }
    for (unsigned m = 0; m < s.messages; m++) {
        uint8_t r[24] = {2, m, 32, sign, 0, agreement};
        put_record(&layout, r);
    }
    for (unsigned m = 0; m < s.messages; m++)
        for (unsigned f = m % 2; f < s.frames; f += 2) {
            uint8_t r[24] = {3, m, f, m / 2 * 32};
            put_record(&layout, r);
        }
    load_file();

    for (size_t f = each_frame(&s, 0); f-- > 0;)
        for (unsigned m = f % 2; m < s.messages; m += 2) {
            float number = 12.625f * (float)m - 99.9f + (f / 2 == 5 ? 0.25f : 0.0f);
            uint32_t pattern;
            memcpy(&pattern, &number, sizeof pattern);
            put_word(inputs[f].data + m / 2 * 4, pattern);
        }
    all(DELIVER, s.frames);
    row(CLOSE, s.name, 1);
    all(CLOSE, 1);
    for (unsigned m = 0; m < s.messages; m++)
        inputs[m] = (struct input){.number = m};
    if (all(RECEIVE, s.messages) != 0)
        differ(RECEIVE);
}

/*
 * A layout of 128 fields: 32 messages of seven bits with a status bit, in four frames each. The frames to be played come first and carry so many fields
 * each; the last 16 frames share what is left of the 128. The shape is that of the frames to be played.
 */
static struct shape load_by_frame(unsigned in_frame, unsigned sent, unsigned event)
{
    const struct shape s = {.frames = in_frame < 8 ? 16 : 128 / in_frame, .bytes = 32, .messages = 32};
    unsigned in_others = (128 - s.frames * in_frame) / 16;
    unsigned next = 0, used[32] = {0};
    uint8_t carries[32][32] = {{0}};

    layout.length = 0;
    for (unsigned f = 0; f < 32; f++) {
        uint8_t r[24] = {1, f, s.bytes, f % 2, sent, event};
        put_record(&layout, r);
        unsigned n = f < s.frames ? in_frame : f < 16 ? 0 : in_others;
        for (; n > 0; n--)
            carries[next++ % 32][f] = 1;
    }
    for (unsigned m = 0; m < s.messages; m++) {
        uint8_t r[24] = {2, m, 7, 0, sent};
        layout.low[m] = 0;
        layout.high[m] = 127;
        layout.is_float[m] = 0;
        put_record(&layout, r);
    }
    for (unsigned m = 0; m < s.messages; m++)
        for (unsigned f = 0; f < 32; f++)
            if (carries[m][f]) {
                unsigned start = 8 * used[f]++;
                uint8_t r[24] = {3, m, f, start, 1, start + 7};
                put_record(&layout, r);
            }
    load_file();
    return s;
}

/* How a call on a frame grows with its fields, in a layout that always has 128. */
static void frame_rows(void)
{
    static const char *const numbers[] = {"1", "2", "4", "8", "16", "32"};
    static const char *const suppressed[] = {"1, answer 23", "2, answer 23", "4, answer 23", "8, answer 23", "16, answer 23", "32, answer 23"};

    for (int k = 0; k < 6; k++) {
        struct shape s = load_by_frame(1u << k, 1, 0);
        all(SEND, each_message(&s));
        row(ASSEMBLE, numbers[k], each_frame(&s, 0));
    }
    for (int k = 0; k < 6; k++) {
        struct shape s = load_by_frame(1u << k, 1, 0);
        all(SEND, each_message(&s));
        all(ASSEMBLE, each_frame(&s, 0));
        row(CONSUMED, numbers[k], s.frames);
    }
    for (int k = 0; k < 6; k++) {
        struct shape s = load_by_frame(1u << k, 1, 1);
        refusal_row(ASSEMBLE, suppressed[k], each_frame(&s, 0), 0, MONDGURT_SUPPRESSED);
    }
    for (int k = 0; k < 6; k++) {
        struct shape s = load_by_frame(1u << k, 0, 0);
        row(DELIVER, numbers[k], each_frame(&s, 255));
    }
}

static void heading(const char *what)
{
    printf("| Call | %s | library, ns | fast twin by gcc, ns | by clang, ns | ratio to the faster |\n|---|---|---|---|---|---|\n", what);
}

int main(void)
{
    static const struct shape shapes[] = {
        {.name = "small", .frames = 1, .bytes = 2, .messages = 1, .fields = 1},
        {.name = "middle", .frames = 8, .bytes = 16, .messages = 16, .fields = 2},
        {.name = "largest", .frames = 32, .bytes = 32, .messages = 32, .fields = 4},
    };
    static const char *const numbers[] = {"1", "2", "4", "8"};

    compare(3000, 200);

    heading("Layout");
    for (int k = 0; k < 3; k++) {
        sending_rows(shapes[k]);
        receiving_rows(shapes[k]);
    }
    printf("\n");
    heading("Closing");
    closing_rows(shapes[2]);
    printf("\n");
    heading("Float means");
    aligned_row("average", 2, 1);
    aligned_row("vote", 2, 2);
    aligned_row("pick any", 2, 0);
    aligned_row("average of whole numbers", 0, 1);
    printf("\n");
    heading("Answer");
    refusal_rows(shapes[2]);
    printf("\n");
    heading("Fields a message");
    for (int k = 0; k < 4; k++) {
        struct shape s = {.name = numbers[k], .frames = 32, .bytes = 32, .messages = 16, .fields = 1u << k, .direction = SENT};
        load(&s);
        row(SEND, s.name, each_message(&s));
    }
    for (int k = 0; k < 4; k++) {
        struct shape s = {.name = numbers[k], .frames = 32, .bytes = 32, .messages = 16, .fields = 1u << k, .direction = RECEIVED};
        load(&s);
        all(DELIVER, each_frame(&s, 255));
        row(CLOSE, s.name, 1);
    }
    printf("\n");
    heading("Fields of the frame");
    frame_rows();
    return 0;
}
