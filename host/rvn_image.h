/*
 * The Ravenscar model on an image: 512 bytes that a host owns and lends to a call. C99, and C++.
 *
 * Every function answers every call: bytes of any length, whatever they hold, and any numbers. A refusal changes no byte. Nothing is kept
 * between calls, nothing is allocated, and no function is called back: all of the machine is in its image, which may be copied, compared,
 * stored and stepped again. Two images are the same machine exactly if their bytes are the same. docs/IMAGE.md has the layout.
 *
 * A pointer may be null only where its length is 0; a seed and a value are one number each, and theirs never is. Two calls on one image at a
 * time are the host's to prevent.
 */
#ifndef RVN_IMAGE_H
#define RVN_IMAGE_H

#include <stddef.h>
#include <stdint.h>

#ifdef __cplusplus
extern "C" {
#endif

/* The length of an image. */
#define RVN_IMAGE_BYTES 512

/* The count of a draw's weights. */
#define RVN_WEIGHTS 8

/* Tasks are 0..31: 0 is idle, always there. Objects are 1..7. Bases and ceilings are 1..15. */
#define RVN_IDLE 0
#define RVN_LAST_TASK 31
#define RVN_LAST_OBJECT 7
#define RVN_TOP_PRIORITY 15

/* Ops, with the operands that each uses. An operand that is not named must be 0. */
#define RVN_CREATE 1   /* a = task, b = priority: created, placed at the tail of its base */
#define RVN_OBJECT 2   /* a = object, b = ceiling: declared */
#define RVN_START 3    /* the front of the ready line runs */
#define RVN_DELAY 4    /* value = time: into the delay line, or, if the time is not above the clock, a yield */
#define RVN_WAKE 5     /* the first delay entry, if it is due, becomes ready and is the released task */
#define RVN_ADVANCE 6  /* value = ticks: the clock grows by that much */
#define RVN_OPEN 7     /* a = object: the runner holds it, for a procedure or function */
#define RVN_CLOSEP 8   /* a = object, b = barrier 0 or 1: ends an open, as 9 does; with 1 a waiting task is released */
#define RVN_CLOSEF 9   /* a = object: ends an open, as 8 with barrier 0 does */
#define RVN_ENTRY 10   /* a = object, b = barrier: 1, the runner holds it, for an entry; 0, the runner waits on it */
#define RVN_DONE 11    /* a = object, b = barrier 0 or 1: ends an entry; with 1 a waiting task is released */
/* Bodies that end in an exception. Each moves tasks, and is refused, as the op that its line names; see RVN_EXCEPTION. */
#define RVN_FAILP 12   /* a = object, b = barrier 0 or 1, as 8: a procedure ends by an exception, which is the runner's */
#define RVN_FAILF 13   /* a = object, as 9: a function ends by an exception, which is the runner's */
#define RVN_FAILE 14   /* a = object, b = barrier 0 or 1, as 11: an entry ends by an exception, which is the runner's */
#define RVN_FAILW 15   /* a = object, b = barrier 0 or 1, as 8: the waiting task's entry body failed meanwhile; the exception is the released task's, nobody's
                          if none is released */

/* Codes: 0, or the number of the refusal. Of several that hold, the answer is the first in the order 1, 4, 2 or 3, then 5 to 13; of a
 * draw in the order 1, 17, 18, 2. */
#define RVN_ACCEPTED 0 /* no refusal: the call did what it is for */
#define RVN_SHAPE 1    /* the image is not 512 bytes, or holds no sound state: running and released are 0 */
#define RVN_EARLY 2    /* ops 4..15 or a draw before start */
#define RVN_LATE 3     /* ops 1..3 after start */
#define RVN_RANGE 4    /* an unknown op, an operand out of its range, an unused operand that is not 0 */
#define RVN_TAKEN 5    /* the task or object is set up already */
#define RVN_MISSING 6  /* the object, or the task asked about, is not set up */
#define RVN_IS_IDLE 7  /* ops 4 and 7..15 while task 0 runs */
#define RVN_INSIDE 8   /* ops 4, 7, 10 while the runner holds an object */
#define RVN_OUTSIDE 9  /* closing an object that the runner does not hold, or holds in the other way */
#define RVN_CEILING 10 /* the runner's base is above the ceiling */
#define RVN_HELD 11    /* another task holds the object */
#define RVN_QUEUE 12   /* an entry with barrier 0 while a task waits there */
#define RVN_CLOCK 13   /* an advance past 2^64-1 */
/* 14 (Line) is of text, 15 (Record) and 16 (Room) are of the tape: no function here answers them. */
#define RVN_SEED 17    /* a draw from seed 0 */
#define RVN_PROFILE 18 /* of a draw: not eight weights, a weight above 100, wake's weight 0, or a span not 1..1000000 */

/*
 * Steps the machine of an image. The answer is code + 256 * running + 65536 * released, and 16777216 more if it shows an exception: RVN_CODE,
 * RVN_RUNNING and RVN_RELEASED take it apart, and RVN_EXCEPTION is the bit of the exception. op, a and b are as wide as C's numbers go, so that
 * nothing is cut on the way: 260 is refused with 4, and so is -1.
 *
 *   image    an accepted command leaves the image of the machine after the step; any other leaves every byte as it was
 *   length   of the image in bytes: 512, any other is refused with 1
 *   op       1..15, see above
 *   a, b     the op's operands: a task, object, priority, ceiling or barrier; 0 where it has none
 *   value    the time of a delay, the ticks of an advance, else 0
 */
uint32_t rvn_step(uint8_t *image, size_t length, uint64_t op, uint64_t a, uint64_t b, uint64_t value);

/*
 * Writes the fresh machine into an image: task 0 alone, no object, clock 0, not started. The answer is 0, or 1 for a wrong length.
 *
 *   image    its old contents do not matter; with answer 1 they stay
 *   length   of the image in bytes: 512
 */
uint32_t rvn_fresh(uint8_t *image, size_t length);

/*
 * How many more Wakes release a task: one more than the count of entries ahead of it in the delay line if it is delayed and due, otherwise
 * 0. The answer is code + 256 * count, with the codes 0, 1, 4 (a task not 1..31) and 6: RVN_CODE and RVN_COUNT take it apart.
 *
 *   image    only read
 *   length   of the image in bytes: 512, any other is refused with 1
 *   task     1..31
 */
uint32_t rvn_wakes_left(const uint8_t *image, size_t length, uint64_t task);

/*
 * Draws a command for the machine of an image, by the seed and the weights: one that rvn_step accepts on the same image. The answer is
 * code + 256 * op + 65536 * a + 16777216 * b: RVN_CODE, RVN_OP, RVN_A and RVN_B take it apart, and with *value they are the operands of
 * rvn_step. A refusal, 1, 17, 18 or 2, answers its code alone, and leaves *seed and *value. The same seed on the same image draws the same
 * command again.
 *
 *   image    only read
 *   length   of the image in bytes: 512, any other is refused with 1
 *   seed     1..4294967295; advanced where it stands, by three draws for each command, and never to 0
 *   span     1..1000000: a delay is drawn at most that far ahead of the clock, an advance at most so long
 *   weights  of the ops 4..11 in their order, each 0..100, weights[1], wake's, not 0. A legal op is drawn the oftener the more it weighs, and
 *            never where it weighs 0. Only read
 *   count    of the weights: 8, any other is refused with 18
 *   value    where the drawn command's value is stored: a time, ticks, or 0
 *
 * The bytes of image, *seed, weights and *value may not overlap.
 */
uint32_t rvn_draw(const uint8_t *image, size_t length, uint32_t *seed, uint64_t span, const uint32_t *weights, size_t count, uint64_t *value);

/*
 * Draws a command for the machine of an image by even choices (edition 2): as rvn_draw, with the same refusals, but a number below n is chosen from
 * those draws alone of which each choice has equally many, by drawing again where one is left over. Another command than rvn_draw's comes of the same
 * seed. The answer is what rvn_draw's is made of + 4294967296 * the draws spent, 3 to 24: RVN_DRAWN and RVN_SPENT take it apart. A refusal, 1, 17, 18
 * or 2, answers its code alone, so that no draw is spent, and leaves *seed and *value.
 *
 *   image, length, span, weights, count, value    as those of rvn_draw
 *   seed     1..4294967295; advanced where it stands, by as many draws as are spent, and never to 0
 *
 * The bytes of image, *seed, weights and *value may not overlap.
 */
uint64_t rvn_draw_even(const uint8_t *image, size_t length, uint32_t *seed, uint64_t span, const uint32_t *weights, size_t count, uint64_t *value);

/*
 * Draws a command for the machine of an image and carries it out: what rvn_draw, and then rvn_step of what it drew, do in two calls, with one test of
 * the state. The answer is that of rvn_draw + 4294967296 * that of rvn_step: RVN_DRAWN and RVN_STEPPED take it apart, and the parts of those are read
 * as theirs are. A drawn command is accepted, so the step's code is 0 always. A refusal, 1, 17, 18 or 2, answers its code alone, so that running,
 * released and the exception are 0 in it, and leaves the image, *seed and *value. (No op above 11 is drawn; an exception that a host's own step left
 * pending may be shown by a drawn one.)
 *
 *   image    of a machine: afterwards of the machine after the step; a refusal leaves every byte as it was
 *   length, seed, span, weights, count, value    as those of rvn_draw
 *
 * The bytes of image, *seed, weights and *value may not overlap.
 */
uint64_t rvn_draw_step(uint8_t *image, size_t length, uint32_t *seed, uint64_t span, const uint32_t *weights, size_t count, uint64_t *value);

/* The two halves of an answer of 64 bits: of rvn_draw_step what is drawn and its step, of rvn_draw_even what is drawn and the draws spent. */
#define RVN_DRAWN(answer) ((uint32_t)(answer))           /* what is drawn, as rvn_draw answers it */
#define RVN_SPENT(answer) ((uint32_t)((answer) >> 32))   /* the draws spent; 0 where the draw is refused */
#define RVN_STEPPED(answer) ((uint32_t)((answer) >> 32)) /* its step, as rvn_step answers it; 0 where the draw is refused */

/* The parts of an answer. */
#define RVN_CODE(answer) ((answer) & 255u)
#define RVN_RUNNING(answer) (((answer) >> 8) & 255u)   /* the running task after the step, 0 before start */
#define RVN_RELEASED(answer) (((answer) >> 16) & 255u) /* the released task, 0 for nobody */
/* Set in an answer of rvn_step that shows an exception of the running task: answer & RVN_EXCEPTION. An exception that an op of 12..15 sets for a task
 * is shown once, by the first accepted answer that names the task as running, the op's own included; until then the image keeps it, and a second
 * one for that task adds nothing. A refusal never has it. (Of rvn_draw and rvn_draw_even the same bit is one of b's; of rvn_draw_step it stands in RVN_STEPPED(answer).) */
#define RVN_EXCEPTION 16777216u
#define RVN_COUNT(answer) (((answer) >> 8) & 255u)     /* of rvn_wakes_left */
#define RVN_OP(answer) (((answer) >> 8) & 255u)        /* of rvn_draw: the op, 0 where it is refused */
#define RVN_A(answer) (((answer) >> 16) & 255u)        /* of rvn_draw: the first operand */
#define RVN_B(answer) (((answer) >> 24) & 255u)        /* of rvn_draw: the second operand */

#ifdef __cplusplus
}
#endif

#endif
