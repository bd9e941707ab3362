/* Calls on memory of any content, at the edge of pages that may not be touched: any_memory CALLS SEED LAYOUT..
   Each call is played twice on the same bytes: once with node, data and place right behind such a page, once right
   before one. It has to return and to touch nothing but what it was lent; refused it leaves all of that as it was,
   what it only reads it leaves in any case, and both times it has the same outcome. The contents are random bytes,
   and nodes loaded from the layouts with some bytes damaged. */

#define _DEFAULT_SOURCE
#include <signal.h>
#include <stdint.h>
#include <stdio.h>
#include <stdlib.h>
#include <string.h>
#include <sys/mman.h>
#include <unistd.h>

#include "mondgurt.h"

enum call { LOAD, SEND, INVALIDATE, ASSEMBLE, CONSUMED, READ_FLAG, DELIVER, CLOSE, RECEIVE, CALLS };

static const char *const names[CALLS] = {"load", "send", "invalidate", "assemble", "consumed", "read_flag", "deliver", "close", "receive"};

/* ---- the call that is being played, for whoever finds it at fault */

static enum call playing;
static uint64_t played;

static void fail(const char *what)
{
    fprintf(stderr, "call %llu, %s: %s\n", (unsigned long long)played, names[playing], what);
    exit(1);
}

/* The program ends here, so what a handler may not do elsewhere does no harm. */
static void on_signal(int number)
{
    fail(number == SIGALRM ? "it does not return" : "it touched memory that it was not lent");
}

/* ---- random numbers */

static uint64_t seed;

static uint64_t draw(void)
{
    uint64_t z = seed += UINT64_C(0x9e3779b97f4a7c15);
    z = (z ^ z >> 30) * UINT64_C(0xbf58476d1ce4e5b9);
    z = (z ^ z >> 27) * UINT64_C(0x94d049bb133111eb);
    return z ^ z >> 31;
}

static uint64_t below(uint64_t n)
{
    return draw() % n;
}

/* Bytes of all values, or only of small ones: more of these are numbers of messages, frames or fields. */
static void fill(uint8_t *bytes, size_t length)
{
    static const uint8_t most[] = {255, 255, 1, 3, 33, 130};
    unsigned values = most[below(sizeof most)] + 1u;

    for (size_t i = 0; i < length; i++)
        bytes[i] = (uint8_t)below(values);
}

static void damage(uint8_t *bytes, size_t length, unsigned places)
{
    while (length > 0 && places-- > 0)
        bytes[below(length)] = (uint8_t)below(below(2) ? 256 : 40);
}

static uint64_t random_number(void)
{
    static const uint64_t edges[] = {31, 32, 33, 127, 128, 255, 256, UINT32_MAX, UINT64_C(1) << 32, INT64_MAX, UINT64_C(1) << 63, UINT64_MAX};

    switch (below(3)) {
    case 0: return draw();
    case 1: return edges[below(sizeof edges / sizeof edges[0])];
    default: return below(32);
    }
}

static int64_t random_value(void)
{
    switch (below(4)) {
    case 0: return (int64_t)draw();
    case 1: return (int64_t)below(UINT64_C(1) << 33) - (INT64_C(1) << 32);
    default: return (int64_t)below(256) - 128;
    }
}

/* ---- memory */

enum { LONGEST = MONDGURT_FILE + 48, UNUSED = 0xC3 };

/* What a call is lent: the node, and data, which may be the place of a flag or of a value. */
enum lent { NODE, DATA, LENT };

/* Pages between two that may not be touched. What is lent lies at their beginning, and on the other side at their end. */
static struct room {
    uint8_t *start, *end;
    uint8_t *lent;
} rooms[2][LENT];

static void make_rooms(void)
{
    static const size_t most[LENT] = {sizeof(mondgurt_node), LONGEST};
    size_t page = (size_t)sysconf(_SC_PAGESIZE);

    for (int side = 0; side < 2; side++)
        for (int k = 0; k < LENT; k++) {
            size_t size = (most[k] + page - 1) / page * page;
            uint8_t *pages = mmap(NULL, page + size + page, PROT_NONE, MAP_PRIVATE | MAP_ANONYMOUS, -1, 0);
            if (pages == MAP_FAILED || mprotect(pages + page, size, PROT_READ | PROT_WRITE) != 0) {
                perror("any_memory");
                exit(2);
            }
            rooms[side][k] = (struct room){.start = pages + page, .end = pages + page + size};
            memset(pages + page, UNUSED, size);
        }
}

/* Lends a copy of the bytes on both sides. */
static void lend(enum lent k, const void *bytes, size_t length)
{
    for (int side = 0; side < 2; side++) {
        struct room *r = &rooms[side][k];
        r->lent = side == 0 ? r->start : r->end - length;
        memcpy(r->lent, bytes, length);
    }
}

static int all_unused(const uint8_t *p, const uint8_t *end)
{
    return p == end || (*p == UNUSED && memcmp(p, p + 1, (size_t)(end - p) - 1) == 0);
}

/* Takes back what was lent into the bytes: it is the same on both sides and, if it was to be kept, as it was; around it all is as it was. */
static void take_back(enum lent k, void *bytes, size_t length, int kept)
{
    if (memcmp(rooms[0][k].lent, rooms[1][k].lent, length) != 0)
        fail("what it leaves depends on where the memory lies");
    if (kept && memcmp(rooms[0][k].lent, bytes, length) != 0)
        fail("it changed what it had to leave");
    memcpy(bytes, rooms[0][k].lent, length);
    for (int side = 0; side < 2; side++) {
        struct room *r = &rooms[side][k];
        if (!all_unused(r->start, r->lent) || !all_unused(r->lent + length, r->end))
            fail("it wrote beside what it was lent");
        memset(r->lent, UNUSED, length);
    }
}

/* ---- contents */

enum { RECORD = 24, FRAME = 1, MESSAGE = 2, MOST_LAYOUTS = 16 };

static struct layout {
    uint8_t file[MONDGURT_FILE];
    size_t length;
    unsigned frames, messages;
    mondgurt_node node;
} layouts[MOST_LAYOUTS];
static unsigned layout_count;

static void read_layout(const char *name)
{
    struct layout *l = &layouts[layout_count];
    FILE *file = layout_count < MOST_LAYOUTS ? fopen(name, "rb") : NULL;

    if (file == NULL) {
        fprintf(stderr, "any_memory: %s cannot be read, or is one too many\n", name);
        exit(2);
    }
    l->length = fread(l->file, 1, sizeof l->file, file);
    fclose(file);
    for (const uint8_t *r = l->file; r < l->file + l->length; r += RECORD) {
        l->frames += *r == FRAME;
        l->messages += *r == MESSAGE;
    }
    if (mondgurt_load(&l->node, l->file, l->length) != 0 || l->frames == 0 || l->messages == 0) {
        fprintf(stderr, "any_memory: %s is refused, or has no frame or no message\n", name);
        exit(2);
    }
    layout_count++;
}

static mondgurt_node node;
static const struct layout *layout; /* the last that the node was loaded from */
static uint8_t data[LONGEST];
static size_t length;

/* Now and then random bytes, a loaded node, or some bytes damaged; else the node stays as the calls left it. */
static void change_node(void)
{
    switch (below(64)) {
    case 0: fill(node.bytes, sizeof node.bytes); break;
    case 1:
    case 2:
        layout = &layouts[below(layout_count)];
        node = layout->node;
        break;
    case 3:
    case 4: damage(node.bytes, sizeof node.bytes, 1 + (unsigned)below(8)); break;
    default: break;
    }
}

/* A layout with some bytes damaged, or random bytes; the length is a layout's, or any. */
static void make_file(void)
{
    const struct layout *l = &layouts[below(layout_count)];

    fill(data, sizeof data);
    length = below(8) ? l->length : below(sizeof data + 1);
    if (below(8)) {
        memcpy(data, l->file, l->length);
        damage(data, length, (unsigned)below(3));
    }
}

/* A message or frame of the layout that the call may name, if eight tries find one; now and then any number. */
static uint64_t make_number(void)
{
    int sends = playing == SEND || playing == INVALIDATE || playing == READ_FLAG || playing == ASSEMBLE || playing == CONSUMED;
    int of_frame = playing == ASSEMBLE || playing == CONSUMED || playing == DELIVER;
    uint64_t number = random_number();

    for (int k = 0; k < 8 && below(8); k++) {
        number = below(of_frame ? layout->frames : layout->messages);
        if (layout->file[RECORD * (of_frame ? number : layout->frames + number) + 4] == sends)
            break;
    }
    return number;
}

/* What the call takes or gives; a frame most often as long as in the layout. */
static void make_data(uint64_t number)
{
    switch (playing) {
    case LOAD: make_file(); return;
    case ASSEMBLE:
    case DELIVER:
        length = below(16) ? below(34) : below(sizeof data + 1);
        if (below(4))
            length = number < layout->frames ? layout->file[RECORD * number + 2] : 32;
        break;
    case READ_FLAG: length = 1; break;
    case RECEIVE: length = sizeof(int64_t); break;
    default: length = 0; break;
    }
    fill(data, length);
}

/* ---- the calls */

static uint64_t seen[CALLS][2]; /* how often a call was refused, and done */

static uint32_t play(int side, uint64_t number, int64_t value, uint8_t valid)
{
    mondgurt_node *n = (mondgurt_node *)rooms[side][NODE].lent;
    uint8_t *d = rooms[side][DATA].lent;

    switch (playing) {
    case LOAD: return mondgurt_load(n, length == 0 ? NULL : d, length);
    case SEND: return mondgurt_send(n, number, value);
    case INVALIDATE: return mondgurt_invalidate(n, number);
    case ASSEMBLE: return mondgurt_assemble(n, number, d, length);
    case CONSUMED: return mondgurt_consumed(n, number);
    case READ_FLAG: return mondgurt_read_flag(n, number, d);
    case DELIVER: return mondgurt_deliver(n, number, valid, length == 0 ? NULL : d, length);
    case CLOSE: return mondgurt_close(n);
    default: return mondgurt_receive(n, number, (int64_t *)(void *)d);
    }
}

static void play_both(void)
{
    uint64_t number = make_number();
    int64_t value = random_value();
    uint8_t valid = (uint8_t)below(4);

    make_data(number);
    lend(NODE, &node, sizeof node);
    lend(DATA, data, length);
    uint32_t answer = play(0, number, value, valid);
    if (answer != play(1, number, value, valid))
        fail("its answer depends on where the memory lies");
    take_back(NODE, &node, sizeof node, answer != 0 || playing == READ_FLAG || playing == RECEIVE);
    take_back(DATA, data, length, answer != 0 || playing == LOAD || playing == DELIVER);
    seen[playing][answer == 0]++;
}

int main(int count, char **words)
{
    if (count < 4) {
        fputs("usage: any_memory CALLS SEED LAYOUT..\n", stderr);
        return 2;
    }
    uint64_t calls = strtoull(words[1], NULL, 10);
    seed = strtoull(words[2], NULL, 10);
    for (int k = 3; k < count; k++)
        read_layout(words[k]);
    layout = layouts;
    make_rooms();
    signal(SIGSEGV, on_signal);
    signal(SIGBUS, on_signal);
    signal(SIGALRM, on_signal);

    for (played = 0; played < calls; played++) {
        if (played % 1024 == 0)
            alarm(60);
        change_node();
        /* A load takes long, so there are fewer. */
        playing = below(64) ? SEND + (enum call)below(CALLS - SEND) : LOAD;
        play_both();
    }
    for (int call = 0; call < CALLS; call++) {
        playing = (enum call)call;
        if (seen[call][1] == 0 || (seen[call][0] == 0 && call != CLOSE))
            fail("it was never refused, or always");
        printf("%s: done %llu, refused %llu\n", names[call], (unsigned long long)seen[call][1], (unsigned long long)seen[call][0]);
    }
    printf("%llu calls kept to their memory\n", (unsigned long long)calls);
    return 0;
}
