/*
 * Plays one call so many times on one side, for speed/count to count its instructions: count library|gcc|clang CALL OPTION TIMES; gcc and clang are the builds
 * of the fast twin. The layout has one message of ten bits. For send, assemble and consumed it is sent in one frame, of two bytes and from bit 3 on, and OPTION is
 * the message's filter for send, else whether it has a status bit (1) and the frame is an event frame (2). For deliver and round it is received, and OPTION is
 * the number of such frames: deliver delivers each, and round delivers each and closes.
 */
#include "fast.h"

#include <stdio.h>
#include <stdlib.h>
#include <string.h>

FAST_CALLS(gcc)
FAST_CALLS(clang)
typedef fast_node gcc_node, clang_node;

enum { VALUE = 677 }; /* which is sent */

static uint8_t data[2], file[24 * (8 + 1 + 8)];
static size_t length;
static unsigned frames;

enum call { NOTHING, SEND, ASSEMBLE, CONSUMED, DELIVER, ROUND, CALLS };

static const char *const names[CALLS] = {"nothing", "send", "assemble", "consumed", "deliver", "round"};

typedef unsigned play(void);

static unsigned play_nothing(void)
{
    return 0;
}

#define PLAY(side, name, call)               \
    static unsigned side##_play_##name(void) \
    {                                        \
        return call;                         \
    }

#define SIDE(side)                                                                                                                 \
    static side##_node side##_start;                                                                                               \
    static unsigned side##_play_deliver(void)                                                                                      \
    {                                                                                                                              \
        unsigned answers = 0;                                                                                                      \
        for (unsigned f = 0; f < frames; f++)                                                                                      \
            answers += side##_deliver(&side##_start, f, 1, data, sizeof data);                                                     \
        return answers;                                                                                                            \
    }                                                                                                                              \
    PLAY(side, send, side##_send(&side##_start, 0, VALUE))                                                                         \
    PLAY(side, assemble, side##_assemble(&side##_start, 0, data, sizeof data))                                                     \
    PLAY(side, consumed, side##_consumed(&side##_start, 0))                                                                        \
    PLAY(side, round, (side##_play_deliver(), side##_close(&side##_start)))                                                        \
    static play *const side##_plays[CALLS] = {play_nothing,         side##_play_send,    side##_play_assemble, \
                                              side##_play_consumed, side##_play_deliver, side##_play_round};

SIDE(mondgurt)
SIDE(gcc)
SIDE(clang)

static enum call call_named(const char *name)
{
    enum call call = NOTHING;

    while (call < ROUND && strcmp(name, names[call]) != 0)
        call++;
    return call;
}

static uint8_t *record(unsigned kind, unsigned number)
{
    uint8_t *r = file + length;

    length += 24;
    r[0] = (uint8_t)kind;
    r[1] = (uint8_t)number;
    return r;
}

static void write_layout(enum call call, unsigned option)
{
    int received = call >= DELIVER;
    int event = !received && call != SEND && option == 2, status = !received && option != 0;

    frames = received ? option : 1;
    for (unsigned f = 0; f < frames; f++) {
        uint8_t *r = record(1, f);
        r[2] = sizeof data;
        r[4] = !received;
        r[5] = (uint8_t)event;
    }
    uint8_t *g = record(2, 0);
    g[2] = 10;
    g[4] = !received;
    g[6] = call == SEND ? (uint8_t)option : 0;
    if (g[6] == 4) { /* what is held from the start is all that passes */
        g[16] = VALUE & 255;
        g[17] = VALUE >> 8;
    }
    if (g[6] == 8) { /* from x1, 0, to x2, 1,023 */
        g[12] = 255;
        g[13] = 3;
    }
    for (unsigned f = 0; f < frames; f++) {
        uint8_t *r = record(3, 0);
        r[2] = (uint8_t)f;
        r[3] = 3;
        r[4] = (uint8_t)status;
        r[5] = status ? 13 : 0;
    }
}

int main(int count, char **word)
{
    if (count != 5)
        return 2;
    play *const *plays = strcmp(word[1], "gcc") == 0 ? gcc_plays : strcmp(word[1], "clang") == 0 ? clang_plays : mondgurt_plays;
    enum call call = call_named(word[2]);
    unsigned option = (unsigned)atoi(word[3]);
    unsigned long answers = 0;

    write_layout(call, option);
    if (mondgurt_load(&mondgurt_start, file, length) || gcc_load(&gcc_start, file, length) || clang_load(&clang_start, file, length))
        return 1;
    for (long times = atol(word[4]); times > 0; times--)
        answers += plays[call]();
    printf("%lu %d %d\n", answers, data[0], data[1]);
    return 0;
}
