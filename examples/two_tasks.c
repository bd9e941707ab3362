/*
 * Two tasks on one node, and a lock between them. One sends the force of the front brakes; the other takes the two frames that carry it to the bus.
 *
 * What the flag promises: if it is set, then since the latest send each of the two frames has been assembled and later consumed. Only one task sends the
 * force, and it looks before it sends the next. So whenever it sees the flag set, the frames that went out last on both channels must have its latest force.
 *
 *     two_tasks samples/brake.layout
 */
#include <pthread.h>
#include <sched.h>
#include <stdio.h>
#include <stdlib.h>

#include "load.h"
#include "mondgurt.h"

/* By their numbers in the layout. */
enum { FORCE_FRONT = 7, BRAKE_A = 5, BRAKE_B = 6 };

/* For each tenth force the flag is awaited. The others are looked at once, and the next force comes whether they have gone out or not. */
enum { SENDS = 100000, AWAITED = 10, FORCES = 4096 };

/* Held for each call on the node, and for whatever else both tasks use. */
static pthread_mutex_t lock = PTHREAD_MUTEX_INITIALIZER;

static mondgurt_node node;
static int64_t out_on_a = -1; /* the force in the frame that went out last */
static int64_t out_on_b = -1;
static int is_sending = 1;

/* Numbers, values and lengths are right, so every call is done. */
static void expect_ok(uint8_t answer)
{
    if (answer != MONDGURT_OK) {
        fprintf(stderr, "two_tasks: answer %s\n", mondgurt_answer_name(answer));
        exit(1);
    }
}

/* ---- the task that sends */

static int broken;

static void send_force(int64_t force)
{
    pthread_mutex_lock(&lock);
    expect_ok(mondgurt_send(&node, FORCE_FRONT, force));
    pthread_mutex_unlock(&lock);
}

/* 1 if the flag is set. Flag and frames are looked at under one lock, since they are to be of one moment. */
static int is_out(int64_t force)
{
    uint8_t flag = 0;
    pthread_mutex_lock(&lock);
    expect_ok(mondgurt_read_flag(&node, FORCE_FRONT, &flag));
    if (flag == 1 && (out_on_a != force || out_on_b != force))
        broken++;
    pthread_mutex_unlock(&lock);
    return flag;
}

static void *control(void *nothing)
{
    for (int k = 0; k < SENDS; k++) {
        int64_t force = k % FORCES;
        send_force(force);
        int out = is_out(force);
        if (k % AWAITED == 0) {
            for (; !out; out = is_out(force))
                sched_yield();
        }
    }
    pthread_mutex_lock(&lock);
    is_sending = 0;
    pthread_mutex_unlock(&lock);
    return nothing;
}

/* ---- the task that takes frames to the bus */

/* The force has the first 12 bits: in little order on channel A, in big order on channel B. */
static int64_t force_on_a(const uint8_t *data)
{
    return data[0] | (data[1] & 15) << 8;
}

static int64_t force_on_b(const uint8_t *data)
{
    return data[0] << 4 | data[1] >> 4;
}

/* Between the two calls, while the frame is on the bus, the lock is free. A force that is sent then is not in this frame; it waits for the next. */
static void transmit(uint64_t frame, int64_t (*force_in)(const uint8_t *), int64_t *out)
{
    uint8_t data[5] = {0};
    pthread_mutex_lock(&lock);
    expect_ok(mondgurt_assemble(&node, frame, data, sizeof data));
    pthread_mutex_unlock(&lock);

    pthread_mutex_lock(&lock);
    *out = force_in(data);
    expect_ok(mondgurt_consumed(&node, frame));
    pthread_mutex_unlock(&lock);
}

static int has_more(void)
{
    pthread_mutex_lock(&lock);
    int more = is_sending;
    pthread_mutex_unlock(&lock);
    return more;
}

static void *bus(void *nothing)
{
    while (has_more()) {
        transmit(BRAKE_A, force_on_a, &out_on_a);
        transmit(BRAKE_B, force_on_b, &out_on_b);
        sched_yield(); /* until the next round */
    }
    return nothing;
}

int main(int count, char **words)
{
    pthread_t controlling, carrying;
    if (!load(&node, count, words))
        return 2;
    if (pthread_create(&controlling, NULL, control, NULL) != 0 || pthread_create(&carrying, NULL, bus, NULL) != 0) {
        fputs("two_tasks: a thread cannot be made\n", stderr);
        return 2;
    }
    pthread_join(controlling, NULL);
    pthread_join(carrying, NULL);
    printf("%d forces were sent. For %d of them the flag was awaited, and it came.\n", SENDS, SENDS / AWAITED);
    printf("It was set for a force that had not gone out on both channels: %d times.\n", broken);
    return broken == 0 ? 0 : 1;
}
