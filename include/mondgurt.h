/*
 * Mondgurt: one node of the message layer. Link crates/mondgurt/out/libmondgurt.a, which `rt lib --cpu x86-64` in crates/mondgurt proves and writes for x86-64
 * Linux; docs/TARGETS.md says what there is for other processors.
 *
 * The life of a node: mondgurt_load reads its layout. To send, mondgurt_send takes a value, mondgurt_assemble writes the data of a frame that carries it,
 * and mondgurt_consumed is told when that frame has gone out. To receive, mondgurt_deliver takes the data of each frame that came, mondgurt_close ends the
 * round, and mondgurt_receive gives a value. A field is a message's place in one frame: sent it is waiting, assembled loaded, consumed gone.
 * Message numbers and frame numbers count from 0; any number may be given, and one that is not in the layout is answered by MONDGURT_ID. Every answer but
 * MONDGURT_OK leaves the node and the caller's memory as they were.
 *
 * A node is memory of the caller. Any content of it is safe, but a node means something only after a mondgurt_load of it has answered 0. Its bytes are not
 * to be kept for another version of the library, in a file, in a flash or across a network: there a node is loaded anew from its layout file.
 *
 * What the caller owes: pointers are not null, except that of a file or of data of length 0; a length is not more than the memory behind its pointer;
 * node, data and places do not overlap; and of two calls on one node, one ends before the other begins, unless both only read it.
 */

/*
 * Tasks, threads and interrupts. Nothing is kept outside the node, and no call waits for another: the caller keeps them apart.
 *
 * - These may run at the same time: on one node mondgurt_read_flag and mondgurt_receive, which take a const mondgurt_node *, with each other, and no
 *   others; on different nodes all. Even so none may write data or a place that another uses. A memcmp of two nodes counts as a call that reads both, an
 *   assignment as a call that reads one and writes the other.
 * - Any other two calls on one node are kept apart by a lock, which both take: a receive too, against a close. It covers one whole call with its node, its
 *   data and its place: taken before the call begins, given back after it has ended. It is held over several calls where their answers shall be of one
 *   round: over two receives, so that no closing comes between.
 * - An interrupt routine cannot wait for a lock that is held by what it interrupts; nor can a signal handler. If it calls, then whatever it may interrupt
 *   masks it around each call on that node. On several processors that is not enough, and both take a spin lock as well.
 * - How long the lock is held at most: docs/PERFORMANCE.md has what each call takes, docs/TARGETS.md its longest loops and its stack.
 * - Between two closings, calls may change places unless they name the same message, the same frame, or a frame and a message that it carries (demand 3
 *   in docs/PROMISES.md). This is about the order of calls that each end before the next begins, and says nothing of calls at the same time, whatever they
 *   name. Without a lock between a task that sends and one that assembles, the flag was seen set for values that had not gone into a frame.
 * - A call that is cut short, as its task is killed, leaves a node that is safe but means nothing until it is loaded anew.
 *
 * examples/two_tasks.c has two threads and a lock, and tools/threads plays it under the thread sanitizer, with the lock and without.
 */
#ifndef MONDGURT_H
#define MONDGURT_H

#include <stddef.h>
#include <stdint.h>

/* GNU C has memcpy of its own: without a C library there may be no string.h. */
#ifdef __GNUC__
#define MONDGURT_MEMCPY __builtin_memcpy
#else
#include <string.h>
#define MONDGURT_MEMCPY memcpy
#endif

/* `inline` is of C99 and C++; in C89, GNU C has it by another name. */
#if defined(__cplusplus) || (defined(__STDC_VERSION__) && __STDC_VERSION__ >= 199901L)
#define MONDGURT_INLINE static inline
#elif defined(__GNUC__)
#define MONDGURT_INLINE static __inline__
#else
#define MONDGURT_INLINE static
#endif

#ifdef __cplusplus
extern "C" {
#endif

/* One more with each landing; docs/CHANGES.md says what each brought. */
#define MONDGURT_VERSION 9

#define MONDGURT_NODE 2851 /* the bytes of a node */
#define MONDGURT_FILE 4608 /* the bytes of the longest layout file */

/* Equal nodes have equal bytes, so memcmp compares two. An assignment copies one. */
typedef struct {
    uint8_t bytes[MONDGURT_NODE];
} mondgurt_node;

/* Answers. A call tests in the order ID, ACCESS, VALUE, NOFUNC, SUPPRESSED. */
#define MONDGURT_OK 0            /* done */
#define MONDGURT_ID 16           /* message or frame number not in the layout; for the flag, also a received message */
#define MONDGURT_ACCESS 17       /* wrong direction */
#define MONDGURT_VALUE 18        /* value outside the message's range or a float that is not finite, or data not of the frame's length */
#define MONDGURT_NOFUNC 19       /* invalidate, message without status bit */
#define MONDGURT_RDA_FAILED 20   /* agreement without result, or no counting instance is a finite float */
#define MONDGURT_NOT_RECEIVED 21 /* no frame of the message delivered, or its filter did not pass */
#define MONDGURT_INVALIDATED 22  /* some frame delivered, but no instance counts */
#define MONDGURT_SUPPRESSED 23   /* frame not to be sent */

/*
 * Reads a layout file. Answers 0, or refusal + 256 * record + 65536 * byte. At start each message holds its initial value, received ones have the status
 * MONDGURT_NOT_RECEIVED, sent ones are invalid if they have a status bit and valid if not, and all fields are gone.
 */
uint32_t mondgurt_load(mondgurt_node *node, const uint8_t *file, size_t length);

/*
 * Puts a value to the message's filter, whose old value is the one that the message holds. If it passes it is held and the message is valid; if not,
 * the held value stays, so that the next value is compared with it too, and the message is invalid. Either way all its fields become waiting. Answers
 * OK in both cases, ID, ACCESS or VALUE.
 */
uint8_t mondgurt_send(mondgurt_node *node, uint64_t message, int64_t value);

/* Makes the message invalid; nothing else changes. Answers OK, ID, ACCESS or NOFUNC. */
uint8_t mondgurt_invalidate(mondgurt_node *node, uint64_t message);

/*
 * Each field of the frame writes the held value and, if present, its status bit into the data; all other bits stay. Waiting fields of this frame
 * become loaded. Answers OK, ID, ACCESS, VALUE, or SUPPRESSED for an event frame with at least one field, all of whose messages are invalid. With that
 * answer waiting fields stay waiting: the flag of such a message is not set until the frame goes out after all, assembled with OK and consumed.
 */
uint8_t mondgurt_assemble(mondgurt_node *node, uint64_t frame, uint8_t *data, size_t length);

/* The frame has gone out: its loaded fields become gone, others stay. Answers OK, ID or ACCESS. */
uint8_t mondgurt_consumed(mondgurt_node *node, uint64_t frame);

/*
 * Gives 1 into flag if all the message's fields are gone, else 0: from a send that answered OK it is 0 until each frame that carries the message has been
 * assembled with OK and later consumed. Answers OK or ID.
 */
uint8_t mondgurt_read_flag(const mondgurt_node *node, uint64_t message, uint8_t *flag);

/*
 * Keeps the data of a received frame until the round is closed, in place of an earlier delivery of it. valid is the controller status: with 0
 * nothing changes, anything else is valid. Answers OK, ID, ACCESS or VALUE.
 */
uint8_t mondgurt_deliver(mondgurt_node *node, uint64_t frame, uint8_t valid, const uint8_t *data, size_t length);

/*
 * Ends the round: for each received message the counting instances (frame validly delivered, and status bit, if it has one, 1) are agreed on and the
 * result is put to its filter, with the held value as old; what passes is held. Then the deliveries are forgotten. Of floats, only the finite ones are
 * agreed on, and filters 8 to 13 compare numbers. Answers OK. What it takes for granted of the processor's floats stands below.
 */
uint8_t mondgurt_close(mondgurt_node *node);

/*
 * Answers the status of the last closing: OK, and the held value goes into value; RDA_FAILED, NOT_RECEIVED or INVALIDATED. Or ID, or ACCESS for a
 * sent message.
 */
uint8_t mondgurt_receive(const mondgurt_node *node, uint64_t message, int64_t *value);

/* Layout refusals. */
#define MONDGURT_SIZE 1     /* length not a multiple of 24, or above 4,608 */
#define MONDGURT_ORDER 2    /* a record out of order */
#define MONDGURT_RANGE 3    /* any other byte outside its range */
#define MONDGURT_REF 4      /* a field names an absent message or frame, or their directions differ */
#define MONDGURT_GROUP 5    /* too many fields, or the fields of a message do not fit together */
#define MONDGURT_PLACE 6    /* a bit past the frame's end, or used twice */
#define MONDGURT_NOFIELD 7  /* a message has no field */
#define MONDGURT_RESERVED 8 /* a byte without a name is not zero */
#define MONDGURT_UNUSED 9   /* x1 or x2 is not zero, though the filter does not use it */
#define MONDGURT_WIDTH 10   /* x1, x2 or the initial value is not extended from the message's width, or of a float not finite */

/*
 * The refusal in the answer of a load, or 0; the record that was refused, counted from 0; and for RANGE, RESERVED, UNUSED and WIDTH the lowest wrong
 * byte of that record, for a word its first. The others give no byte, which is 0 here: byte 0 is the kind, and a wrong kind is ORDER.
 */
#define MONDGURT_REFUSAL(answer) ((answer) % 256)
#define MONDGURT_RECORD(answer) ((answer) / 256 % 256)
#define MONDGURT_BYTE(answer) ((answer) / 65536)

/* The name of an answer as it stands above, "OK" to "SUPPRESSED"; of a number that is none, "UNKNOWN". */
MONDGURT_INLINE const char *mondgurt_answer_name(uint8_t answer)
{
    switch (answer) {
    case MONDGURT_OK: return "OK";
    case MONDGURT_ID: return "ID";
    case MONDGURT_ACCESS: return "ACCESS";
    case MONDGURT_VALUE: return "VALUE";
    case MONDGURT_NOFUNC: return "NOFUNC";
    case MONDGURT_RDA_FAILED: return "RDA_FAILED";
    case MONDGURT_NOT_RECEIVED: return "NOT_RECEIVED";
    case MONDGURT_INVALIDATED: return "INVALIDATED";
    case MONDGURT_SUPPRESSED: return "SUPPRESSED";
    default: return "UNKNOWN";
    }
}

/* The name of the refusal in the answer of a load, "SIZE" to "WIDTH"; of 0, "OK"; of a number without a refusal in it, "UNKNOWN". */
MONDGURT_INLINE const char *mondgurt_refusal_name(uint32_t answer)
{
    if (answer == 0)
        return "OK";
    switch (MONDGURT_REFUSAL(answer)) {
    case MONDGURT_SIZE: return "SIZE";
    case MONDGURT_ORDER: return "ORDER";
    case MONDGURT_RANGE: return "RANGE";
    case MONDGURT_REF: return "REF";
    case MONDGURT_GROUP: return "GROUP";
    case MONDGURT_PLACE: return "PLACE";
    case MONDGURT_NOFIELD: return "NOFIELD";
    case MONDGURT_RESERVED: return "RESERVED";
    case MONDGURT_UNUSED: return "UNUSED";
    case MONDGURT_WIDTH: return "WIDTH";
    default: return "UNKNOWN";
    }
}

/*
 * Floats. Of a message whose sign in the layout is 2, a value is the bit pattern of a 32-bit IEEE 754 float, 0 to 4,294,967,295: in a send, in a
 * receive and in the 32 bits of a field. A send of a pattern that is not finite, an infinity or a NaN, answers VALUE; a received instance that is not
 * finite is set aside at the closing, and a receive gives finite floats only. These two turn a float into a value and a value back into the float.
 *
 * A mean of floats is the sum of the values in frame order divided by their number, each step an f32 operation of the processor. mondgurt_close takes for
 * granted that these are rounded to nearest-even, with subnormal numbers kept and no trap, as at the start of a program. A caller that has set another
 * rounding mode, flush-to-zero or denormals-are-zero (in MXCSR on x86-64, FPCR on Arm, frm on RISC-V), or has unmasked floating-point exceptions, restores
 * the default before mondgurt_close. No other call does float arithmetic.
 */
typedef char mondgurt_float_has_four_bytes[sizeof(float) == 4 ? 1 : -1];

MONDGURT_INLINE int64_t mondgurt_value_of_float(float number)
{
    uint32_t pattern;
    MONDGURT_MEMCPY(&pattern, &number, sizeof pattern);
    return pattern;
}

MONDGURT_INLINE float mondgurt_float_of_value(int64_t value)
{
    uint32_t pattern = (uint32_t)value;
    float number;
    MONDGURT_MEMCPY(&number, &pattern, sizeof number);
    return number;
}

#ifdef __cplusplus
}
#endif

#endif
