/*
 * Two channels carry the position of the brake pedal. Two nodes get the same deliveries in opposite orders: they end up equal, byte for byte.
 *
 *     two_channels samples/brake.layout
 */
#include <inttypes.h>
#include <stdio.h>
#include <string.h>

#include "load.h"
#include "mondgurt.h"

/* Frames and messages by their numbers in the layout. */
enum { PEDAL_A = 3, PEDAL_B = 4 };
enum { PEDAL = 4, PEDAL_RATE = 5 };

/* Channel A in little order: pedal 677, rate -3. Channel B in big order: pedal 680, rate -4. All four status bits are 1. */
static const uint8_t on_a[4] = {0x2B, 0x15, 0xFD, 0x03};
static const uint8_t on_b[4] = {0xD5, 0x40, 0xFF, 0x00};

static mondgurt_node a_first;
static mondgurt_node b_first;

static void show(const char *name, uint64_t message)
{
    int64_t value;
    uint8_t answer = mondgurt_receive(&a_first, message, &value);
    if (answer == MONDGURT_OK)
        printf("  %s: %" PRId64 "\n", name, value);
    else if (answer == MONDGURT_NOT_RECEIVED)
        printf("  %s: not received\n", name);
    else
        printf("  %s: answer %s\n", name, mondgurt_answer_name(answer));
}

/* A round with these controller statuses of the two channels: 1 if every call was done and the nodes are equal. */
static int play(const char *title, uint8_t valid_a, uint8_t valid_b)
{
    int done = mondgurt_deliver(&a_first, PEDAL_A, valid_a, on_a, sizeof on_a) == MONDGURT_OK
        && mondgurt_deliver(&a_first, PEDAL_B, valid_b, on_b, sizeof on_b) == MONDGURT_OK
        && mondgurt_deliver(&b_first, PEDAL_B, valid_b, on_b, sizeof on_b) == MONDGURT_OK
        && mondgurt_deliver(&b_first, PEDAL_A, valid_a, on_a, sizeof on_a) == MONDGURT_OK;
    mondgurt_close(&a_first);
    mondgurt_close(&b_first);
    int equal = memcmp(&a_first, &b_first, sizeof a_first) == 0;
    puts(title);
    show("pedal (pick any)", PEDAL);
    show("rate (average)", PEDAL_RATE);
    puts(!done ? "  a delivery was refused" : equal ? "  the two nodes are equal" : "  THE TWO NODES DIFFER");
    return done && equal;
}

int main(int count, char **words)
{
    if (!load(&a_first, count, words))
        return 2;
    b_first = a_first;
    puts("Channel A says pedal 677 and rate -3, channel B says pedal 680 and rate -4.");
    puts("One node gets A and then B in each round, the other gets B and then A.");
    int equal = play("Both channels come:", 1, 1);
    equal &= play("Channel A is lost:", 0, 1);
    equal &= play("Both are lost:", 0, 0);
    return equal ? 0 : 1;
}
