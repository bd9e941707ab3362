/* Plays steps on the library: reads them from standard input and writes a reply to each to standard output.
   The twin starts it. A step is a letter, the number of a node and what the step brings; a reply is the answer,
   the marks and the lent bytes afterwards. Numbers are little-endian. */

#include <stdint.h>
#include <stdio.h>
#include <stdlib.h>
#include <string.h>

#include "mondgurt.h"

#if MONDGURT_OK != 0 || MONDGURT_ID != 16 || MONDGURT_ACCESS != 17 || MONDGURT_VALUE != 18 || MONDGURT_NOFUNC != 19 || \
    MONDGURT_RDA_FAILED != 20 || MONDGURT_NOT_RECEIVED != 21 || MONDGURT_INVALIDATED != 22 || MONDGURT_SUPPRESSED != 23
#error "an answer does not have the paper's number"
#endif

#if MONDGURT_SIZE != 1 || MONDGURT_ORDER != 2 || MONDGURT_RANGE != 3 || MONDGURT_REF != 4 || MONDGURT_GROUP != 5 || \
    MONDGURT_PLACE != 6 || MONDGURT_NOFIELD != 7 || MONDGURT_RESERVED != 8 || MONDGURT_UNUSED != 9 || MONDGURT_WIDTH != 10
#error "a refusal does not have the paper's number"
#endif

#if MONDGURT_FILE != 4608
#error "the longest layout file is not the paper's"
#endif

/* WIDTH at byte 16 of record 191. */
#define REFUSED (10 + 256 * 191 + 65536 * 16)
#if MONDGURT_REFUSAL(REFUSED) != 10 || MONDGURT_RECORD(REFUSED) != 191 || MONDGURT_BYTE(REFUSED) != 16
#error "an answer of a load is not taken apart"
#endif

/* Bytes of guard before and behind what is lent. An odd number, so that it begins at an odd address; 0 for a
   memory checker, which sees each byte outside by itself. */
#ifndef GUARD
#define GUARD 61
#endif

enum { GUARD_BYTE = 0xC3 };
enum { AROUND = 1, NODE = 2, DATA = 4 };

static const int64_t GUARD_VALUE = 0x4747474747474747;

/* What stands before and behind; one byte more, since an array has at least one. */
static uint8_t guard[GUARD + 1];

static void *allocate(size_t length)
{
    void *memory = malloc(length);
    if (memory == NULL && length > 0) {
        fputs("player: out of memory\n", stderr);
        exit(2);
    }
    return memory;
}

static uint8_t *lend(size_t length)
{
    uint8_t *memory = allocate(GUARD + length + GUARD);
    memset(memory, GUARD_BYTE, GUARD + length + GUARD);
    return memory + GUARD;
}

static void give_back(uint8_t *lent)
{
    free(lent - GUARD);
}

static int touched_around(const uint8_t *lent, size_t length)
{
    int whole = memcmp(lent - GUARD, guard, GUARD) == 0 && memcmp(lent + length, guard, GUARD) == 0;
    return whole ? 0 : AROUND;
}

static void take(uint8_t *bytes, size_t length)
{
    if (fread(bytes, 1, length, stdin) != length) {
        fputs("player: a step is cut short\n", stderr);
        exit(2);
    }
}

static uint64_t number(size_t length)
{
    uint8_t bytes[8];
    uint64_t value = 0;
    take(bytes, length);
    for (size_t i = 0; i < length; i++)
        value |= (uint64_t)bytes[i] << (8 * i);
    return value;
}

static int64_t signed_number(void)
{
    uint64_t bits = number(8);
    int64_t value;
    memcpy(&value, &bits, sizeof value);
    return value;
}

static void put(uint64_t value, size_t length)
{
    for (size_t i = 0; i < length; i++)
        putchar((int)(value >> (8 * i) & 0xFF));
}

static void reply(uint32_t answer, int marks)
{
    put(answer, 4);
    put((uint64_t)marks, 1);
}

static mondgurt_node *nodes[2];
static mondgurt_node before;

/* What changed around the nodes and in the node of this step. */
static int node_marks(const mondgurt_node *node)
{
    int marks = memcmp(node, &before, sizeof before) == 0 ? 0 : NODE;
    for (int i = 0; i < 2; i++)
        marks |= touched_around(nodes[i]->bytes, sizeof before);
    return marks;
}

static void load(mondgurt_node *node)
{
    size_t length = number(4);
    uint8_t *file = lend(length);
    uint8_t *copy = allocate(length);
    take(file, length);
    memcpy(copy, file, length);
    uint32_t answer = mondgurt_load(node, length == 0 ? NULL : file, length);
    int data = memcmp(file, copy, length) == 0 ? 0 : DATA;
    reply(answer, node_marks(node) | touched_around(file, length) | data);
    free(copy);
    give_back(file);
}

static void assemble(mondgurt_node *node)
{
    uint64_t frame = number(8);
    size_t length = number(4);
    uint8_t *data = lend(length);
    take(data, length);
    uint8_t answer = mondgurt_assemble(node, frame, length == 0 ? NULL : data, length);
    reply(answer, node_marks(node) | touched_around(data, length));
    fwrite(data, 1, length, stdout);
    give_back(data);
}

static void read_flag(mondgurt_node *node)
{
    uint64_t message = number(8);
    uint8_t place[3] = {GUARD_BYTE, (uint8_t)number(1), GUARD_BYTE};
    uint8_t answer = mondgurt_read_flag(node, message, &place[1]);
    int around = place[0] == GUARD_BYTE && place[2] == GUARD_BYTE ? 0 : AROUND;
    reply(answer, node_marks(node) | around);
    put(place[1], 1);
}

static void deliver(mondgurt_node *node)
{
    uint64_t frame = number(8);
    uint8_t valid = (uint8_t)number(1);
    size_t length = number(4);
    uint8_t *data = lend(length);
    uint8_t *copy = allocate(length);
    take(data, length);
    memcpy(copy, data, length);
    uint8_t answer = mondgurt_deliver(node, frame, valid, length == 0 ? NULL : data, length);
    int changed = memcmp(data, copy, length) == 0 ? 0 : DATA;
    reply(answer, node_marks(node) | touched_around(data, length) | changed);
    free(copy);
    give_back(data);
}

static void receive(mondgurt_node *node)
{
    uint64_t message = number(8);
    int64_t place[3] = {GUARD_VALUE, 0, GUARD_VALUE};
    place[1] = signed_number();
    uint8_t answer = mondgurt_receive(node, message, &place[1]);
    int around = place[0] == GUARD_VALUE && place[2] == GUARD_VALUE ? 0 : AROUND;
    reply(answer, node_marks(node) | around);
    put((uint64_t)place[1], 8);
}

static void play(int step, mondgurt_node *node)
{
    uint64_t named;
    uint8_t answer;
    before = *node;
    switch (step) {
    case 'Z': /* fill the node */
        memset(node->bytes, (int)number(1), sizeof node->bytes);
        reply(0, 0);
        break;
    case 'L':
        load(node);
        break;
    case 'P': /* damage a byte */
        named = number(4) % sizeof node->bytes;
        node->bytes[named] = (uint8_t)number(1);
        reply(0, 0);
        break;
    case 'S':
        named = number(8);
        answer = mondgurt_send(node, named, signed_number());
        reply(answer, node_marks(node));
        break;
    case 'I':
        answer = mondgurt_invalidate(node, number(8));
        reply(answer, node_marks(node));
        break;
    case 'A':
        assemble(node);
        break;
    case 'C':
        answer = mondgurt_consumed(node, number(8));
        reply(answer, node_marks(node));
        break;
    case 'F':
        read_flag(node);
        break;
    case 'D':
        deliver(node);
        break;
    case 'X':
        answer = mondgurt_close(node);
        reply(answer, node_marks(node));
        break;
    case 'R':
        receive(node);
        break;
    case 'N': /* the node's bytes */
        reply(0, 0);
        fwrite(node->bytes, 1, sizeof node->bytes, stdout);
        break;
    default:
        fputs("player: no such step\n", stderr);
        exit(2);
    }
}

int main(void)
{
    int step;
    memset(guard, GUARD_BYTE, sizeof guard);
    for (int i = 0; i < 2; i++)
        nodes[i] = (mondgurt_node *)lend(sizeof(mondgurt_node));
    put(sizeof(mondgurt_node), 4);
    fflush(stdout);
    while ((step = getchar()) != EOF) {
        if (step == 'E')
            fflush(stdout);
        else
            play(step, nodes[number(1) & 1]);
    }
    for (int i = 0; i < 2; i++)
        give_back(nodes[i]->bytes);
    return 0;
}
