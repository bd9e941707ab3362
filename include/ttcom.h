/*
 * FTCom 1.0's own names for the calls of an application (its sections 6.1, 6.3 and 6.5), over one node.
 *
 * The program defines `mondgurt_node ttNode;` and loads it. Or it chooses its node, a static one or one of several, before it includes this file:
 *
 *     #include "mondgurt.h"
 *     static mondgurt_node front;
 *     #define TT_NODE (&front)
 *     #include "ttcom.h"
 *
 * TT_NODE may also be a pointer variable: each call is on the node that it then points to. Assembling, consuming, delivering and closing have no name
 * in FTCom: they are mondgurt_assemble, mondgurt_consumed, mondgurt_deliver and mondgurt_close, on TT_NODE.
 *
 * Where this differs from FTCom 1.0, or decides what that leaves open. Its sections stand in brackets.
 *
 * Who calls
 * - Task bodies and user ISRs call (6.3.3 to 6.3.5, 6.5.3), and the system should keep the data consistent (6.3.6). Here the program keeps the calls
 *   apart, by a lock: "Tasks, threads and interrupts" in mondgurt.h. No call blocks, as 6.3.6 asks, but a lock may.
 * - Tasks of one node talk to each other by messages too (5), and a vote may mix internal and external ones (3.11). Here a message is sent or received
 *   and never both: no receive of a node gives what a send of the same node took.
 * - Each message should have one sender (6.3.6). Here any task may send it, under the lock, and its flag tells of the latest send.
 * - FTCom is configured when the system is generated (2). Here mondgurt_load reads a layout at run time.
 *
 * Types and codes
 * - What a message contains is left open (3.1: a block of application data). Here it is one signed 64-bit number. FTCom has no float type;
 *   mondgurt_value_of_float and mondgurt_float_of_value turn a float into such a number and back.
 * - ttAccessNameType is the type of references to the message body, and ttAccessNameRefType refers to a variable of it (6.3.1). Here ttAccessNameType
 *   is the body itself, so that ttAccessNameRefType is the reference to message contents that 6.3.3 and 6.3.4 ask for. ttSendMessage only reads the
 *   contents, and takes a pointer to const.
 * - Identifiers are left open (6.3.1, 6.5.1). Here a message has its number in the layout, from 0, and a flag the number of its message.
 * - ttStatusType is StatusType of OSEK's binding specification, and TT_E_FTCOM_OK has the value of E_OK (6.1, 6.3.1). Here they are uint8_t and 0,
 *   which is E_OK there; neither StatusType nor E_OK is declared. All other numbers are left open: the codes are those of mondgurt.h, TT_FLAG_SET is 1
 *   and TT_FLAG_CLEARED 0.
 * - TT_E_FTCom_ (3, 6), TT_E_FTCOM_MSG_NOT RECEIVED (6.1, 6.3.2) and ttFlagIDType (8.1) are spelled here as in 6.2.1, 6.3.4 and 6.5.1: TT_E_FTCOM_,
 *   TT_E_FTCOM_MSG_NOT_RECEIVED and ttFlagIdType.
 * - All names begin with tt or TT (6.2.1). Here those of mondgurt.h come with them, which begin with mondgurt_ or MONDGURT_.
 * - ID, ACCESS and NOFUNC are answers of the extended version alone (6.3, 6.5). Here every test is always made, in the order ID, ACCESS, VALUE, NOFUNC.
 * - TT_E_FTCOM_ACCESS is for <Data> that is invalid, for access denied, and for an instance in place of a message (6.3.3 to 6.3.5). Here it is for the
 *   wrong direction alone: a received message that is sent or invalidated, a sent one that is received. A null reference must not be given, and an
 *   instance has no number that could be.
 * - TT_E_FTCOM_VALUE is for a time that is not available (6.6). Here ttSendMessage answers it for a value outside the message's range, and for a float
 *   that is not finite.
 * - After an error the caller's memory is as it was: FTCom says so of ttReceiveMessage (6.3.4). Here it holds of every call, and of the node too.
 *
 * What the calls do
 * - ttSendMessage always marks the message as valid (6.3.3), and one whose value is filtered out is marked as invalidated (3.10.1). Here the filter
 *   decides: if it does not pass the value, ttSendMessage answers TT_E_FTCOM_OK, makes the message invalid, keeps the value that was held, and resets
 *   the flag as always.
 * - A filter's old value is the last value of the message, which for a received one is the last that passed (3.10.1); for a sent one, of which a value was
 *   filtered out, it is left open. Here it is the value that the message holds, sent or received: the last that passed, and at start the initial value.
 * - Filters and agreements are optional, and the user may define more (3.9, 3.10.1). Here each message has one of the fourteen filters, and each
 *   received one pick any, average or vote; there are no others. Pick any takes the valid instance with the lowest frame number, and an average of whole
 *   numbers drops the fraction, toward zero.
 * - Only consistent instances are used, as those of one point in time (3.8). Here those count that were delivered since the last closing and are valid:
 *   the program closes when all that belong together have come.
 * - ttReceiveMessage tells of the last execution (3.10.2, 6.3.4): here of the last mondgurt_close, and before the first TT_E_FTCOM_MSG_NOT_RECEIVED. An
 *   agreement fails also if no instance was received (3.9), and the priorities leave out TT_E_FTCOM_MSG_INVALIDATED (3.11). Here the first that applies
 *   is answered: no frame of the message delivered, TT_E_FTCOM_MSG_NOT_RECEIVED; all instances that came invalid, TT_E_FTCOM_MSG_INVALIDATED; agreement
 *   without result, TT_E_FTCOM_RDA_FAILED; not passed by the filter, TT_E_FTCOM_MSG_NOT_RECEIVED.
 * - ttInvalidateMessage marks the message as invalid and sends it (3.6). Here it only marks it, as in 6.3.5: its fields stay waiting, loaded or gone,
 *   and the flag stays too. It marks by the status bit and by no other means (3.6 has some); a message without that bit answers TT_E_FTCOM_NOFUNC.
 * - ttReadFlag tells whether the controller has consumed the message (3.7): here, whether mondgurt_consumed has told so. Before the first send, which
 *   is left open, the flag is set. A received message has no flag: TT_E_FTCOM_ID.
 * - An event-driven system suppresses a frame if all its messages are invalid (3.2.2, 3.6). Here each frame is a time or an event frame, one that
 *   carries no message is never suppressed, and mondgurt_assemble answers MONDGURT_SUPPRESSED; FTCom has no name for that, as it has none for
 *   assembling.
 *
 * What is not here
 * - Time (4.1, 6.6): ttGetGlobalTime, ttGetComSyncStatus and ttGetSyncTimes, with their types and constants.
 * - External clock synchronisation (4.2, 6.7): ttExtClockSync and ttSetExtSync.
 * - Node membership (4.3, 6.4), which is optional: ttGetNodeMembership (its type is printed as ttNodeType), with its types and constants.
 * - Lifesign update (4.4), whose call is said to be in the API description, which has none, and start-up (4.5), which is left to the protocol.
 */
#ifndef TTCOM_H
#define TTCOM_H

#include "mondgurt.h"

typedef uint8_t ttStatusType;
typedef uint64_t ttMsgIdType;
typedef int64_t ttAccessNameType;
typedef ttAccessNameType *ttAccessNameRefType;
typedef uint64_t ttFlagIdType;
typedef uint8_t ttFlagStatusType;
typedef ttFlagStatusType *ttFlagStatusRefType;

#define TT_E_FTCOM_OK MONDGURT_OK
#define TT_E_FTCOM_ID MONDGURT_ID
#define TT_E_FTCOM_ACCESS MONDGURT_ACCESS
#define TT_E_FTCOM_VALUE MONDGURT_VALUE
#define TT_E_FTCOM_NOFUNC MONDGURT_NOFUNC
#define TT_E_FTCOM_RDA_FAILED MONDGURT_RDA_FAILED
#define TT_E_FTCOM_MSG_NOT_RECEIVED MONDGURT_NOT_RECEIVED
#define TT_E_FTCOM_MSG_INVALIDATED MONDGURT_INVALIDATED

#define TT_FLAG_CLEARED 0
#define TT_FLAG_SET 1

#ifdef __cplusplus
extern "C" {
#endif

#ifndef TT_NODE
extern mondgurt_node ttNode;
#define TT_NODE (&ttNode)
#endif

/* 6.3.3 */
MONDGURT_INLINE ttStatusType ttSendMessage(ttMsgIdType Message, const ttAccessNameType *Data)
{
    return mondgurt_send(TT_NODE, Message, *Data);
}

/* 6.3.4 */
MONDGURT_INLINE ttStatusType ttReceiveMessage(ttMsgIdType Message, ttAccessNameRefType Data)
{
    return mondgurt_receive(TT_NODE, Message, Data);
}

/* 6.3.5 */
MONDGURT_INLINE ttStatusType ttInvalidateMessage(ttMsgIdType Message)
{
    return mondgurt_invalidate(TT_NODE, Message);
}

/* 6.5.3 */
MONDGURT_INLINE ttStatusType ttReadFlag(ttFlagIdType Flag, ttFlagStatusRefType Status)
{
    return mondgurt_read_flag(TT_NODE, Flag, Status);
}

#ifdef __cplusplus
}
#endif

#endif
