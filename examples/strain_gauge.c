/*
 * Three strain gauges send 32-bit floats, and the node shows their mean. A gauge that sends no number is left out. A set point goes out as a float too.
 *
 *     strain_gauge samples/strain.layout
 */
#include <math.h>
#include <stdio.h>

#include "load.h"
#include "mondgurt.h"

/* Frames and messages by their numbers in the layout. */
enum { GAUGE_A, GAUGE_B, GAUGE_C, COMMAND };
enum { STRAIN, SET_POINT };

static mondgurt_node node;

/* A gauge's frame: the float in bits 0 to 31 of little order, and the status bit at 32. */
static uint8_t deliver(uint64_t frame, float strain)
{
    int64_t value = mondgurt_value_of_float(strain);
    uint8_t data[8] = {0};
    for (int k = 0; k < 4; k++)
        data[k] = (uint8_t)(value >> 8 * k);
    data[4] = 1;
    return mondgurt_deliver(&node, frame, 1, data, sizeof data);
}

/* A round in which the gauges say a, b and c. */
static void play(const char *title, float a, float b, float c)
{
    int64_t value;
    int done = deliver(GAUGE_A, a) == MONDGURT_OK && deliver(GAUGE_B, b) == MONDGURT_OK && deliver(GAUGE_C, c) == MONDGURT_OK;
    mondgurt_close(&node);
    uint8_t answer = mondgurt_receive(&node, STRAIN, &value);
    printf("%s: ", title);
    if (!done)
        puts("a delivery was refused");
    else if (answer == MONDGURT_OK)
        printf("strain %g\n", mondgurt_float_of_value(value));
    else if (answer == MONDGURT_NOT_RECEIVED)
        puts("not received");
    else
        printf("answer %s\n", mondgurt_answer_name(answer));
}

static void send_set_point(const char *title, float set_point)
{
    uint8_t data[4] = {0};
    uint8_t answer = mondgurt_send(&node, SET_POINT, mondgurt_value_of_float(set_point));
    int done = mondgurt_assemble(&node, COMMAND, data, sizeof data) == MONDGURT_OK;
    printf("%s: answer %s, ", title, mondgurt_answer_name(answer));
    printf("%s %02X %02X %02X %02X\n", done ? "the frame is" : "no frame", data[0], data[1], data[2], data[3]);
}

int main(int count, char **words)
{
    if (!load(&node, count, words))
        return 2;
    play("The gauges say 120.5, 121 and 119.5", 120.5f, 121.0f, 119.5f);
    play("They say 120.5, NaN and 121.5", 120.5f, NAN, 121.5f);
    play("They say infinity, NaN and NaN", INFINITY, NAN, NAN);
    play("They say 5000, 5001 and 4999, above the filter's 1000", 5000.0f, 5001.0f, 4999.0f);
    play("They say 0.1, 0.1 and 0.1", 0.1f, 0.1f, 0.1f);
    play("They say -120.5, -121 and -119.5", -120.5f, -121.0f, -119.5f);
    send_set_point("Set point 250.75 is sent", 250.75f);
    send_set_point("Set point infinity is sent", INFINITY);
    return 0;
}
