/* The calls of mondgurt.h as one writes them by hand in C, on a struct: what the library's time is compared with. Answers are mondgurt.h's. */
#ifndef FAST_H
#define FAST_H

#include "mondgurt.h"

typedef struct {
    uint8_t length, big, sent, event;
    uint8_t first; /* its first field, the others by next; FAST_NONE ends */
    uint8_t data[40]; /* 32 and a margin, so that eight can be read from each of them on */
} fast_frame;

typedef struct {
    uint8_t width, is_signed, is_float, sent, agreement, filter, has_status;
    uint8_t valid, status;
    uint8_t first, fields; /* its fields are next to each other */
    uint32_t x1, x2;
    int64_t low, high; /* its least and greatest value */
    int64_t held;
} fast_message;

enum fast_stage { FAST_WAITING, FAST_LOADED, FAST_GONE };

typedef struct {
    uint8_t message, frame, start, has_status, place;
    uint8_t stage;
    uint8_t next; /* of the same frame */
} fast_field;

#define FAST_NONE 255

typedef struct {
    uint8_t frames, messages, fields;
    uint32_t delivered; /* bit f: frame f was delivered this round */
    fast_frame frame[32];
    fast_message message[32];
    fast_field field[128];
} fast_node;

/* speed/twin compiles fast.c by two compilers and names their calls gcc_load, clang_load and so on. */
#define FAST_CALLS(build)                                                                                                         \
    uint32_t build##_load(fast_node *node, const uint8_t *file, size_t length);                                                   \
    uint8_t build##_send(fast_node *node, uint64_t message, int64_t value);                                                       \
    uint8_t build##_invalidate(fast_node *node, uint64_t message);                                                                \
    uint8_t build##_assemble(fast_node *node, uint64_t frame, uint8_t *data, size_t length);                                      \
    uint8_t build##_consumed(fast_node *node, uint64_t frame);                                                                    \
    uint8_t build##_read_flag(const fast_node *node, uint64_t message, uint8_t *flag);                                            \
    uint8_t build##_deliver(fast_node *node, uint64_t frame, uint8_t valid, const uint8_t *data, size_t length);                  \
    uint8_t build##_close(fast_node *node);                                                                                       \
    uint8_t build##_receive(const fast_node *node, uint64_t message, int64_t *value);

#endif
