/*
 * Sends the force of the front brakes by FTCom's own names. It goes out on two channels, and its flag is set once both frames are consumed.
 *
 *     brake_force samples/brake.layout
 */
#include <stdio.h>

#include "load.h"
#include "ttcom.h"

/* By their numbers in the layout. */
enum { FORCE_FRONT = 7, BRAKE_A = 5, BRAKE_B = 6 };

mondgurt_node ttNode;

static void show(const char *when, ttStatusType answer)
{
    ttFlagStatusType flag = TT_FLAG_CLEARED;
    ttReadFlag(FORCE_FRONT, &flag);
    printf("%s: answer %s, flag %s\n", when, mondgurt_answer_name(answer), flag == TT_FLAG_SET ? "set" : "cleared");
}

int main(int count, char **words)
{
    uint8_t data[5] = {0};
    const ttAccessNameType force = 1500;
    const ttAccessNameType too_much = 4096;
    if (!load(&ttNode, count, words))
        return 2;
    show("1500 is sent", ttSendMessage(FORCE_FRONT, &force));
    show("channel A's frame is assembled", mondgurt_assemble(&ttNode, BRAKE_A, data, sizeof data));
    show("and consumed", mondgurt_consumed(&ttNode, BRAKE_A));
    show("channel B's frame is assembled", mondgurt_assemble(&ttNode, BRAKE_B, data, sizeof data));
    show("and consumed", mondgurt_consumed(&ttNode, BRAKE_B));
    show("4096 is sent, more than 12 bits hold", ttSendMessage(FORCE_FRONT, &too_much));
    return 0;
}
