/*
 * How much stack each exported call takes: it runs on a painted stack of its own, and afterwards it is looked how far down that was written. Each
 * call is made thousands of times, accepted and refused: every op, machines of all sizes, spoilt images, tapes that agree, differ and are none.
 * Prints the most bytes that each call took, its return address among them, and fails where that is more than docs/IMAGE.md and docs/JUDGE-C.md
 * allow. The seed is fixed.
 */
#define _GNU_SOURCE
#include <stdio.h>
#include <stdlib.h>
#include <string.h>
#include <ucontext.h>
#include "chance.h"
#include "rvn_image.h"
#include "rvn_judge.h"

#define STACK 65536
#define PAINT 0xA5
#define ROUNDS 400
#define RECORDS 64

enum call { NOTHING, STEP, FRESH, LEFT, DRAW, DRAW_EVEN, DRAW_STEP, JUDGE, CALLS };

/* The names, and the bounds that the documents state. */
static const char *const names[CALLS] = {"", "rvn_step", "rvn_fresh", "rvn_wakes_left", "rvn_draw", "rvn_draw_even", "rvn_draw_step", "rvn_judge"};
static const size_t bounds[CALLS] = {0, 8192, 256, 4096, 2048, 2048, 2048, 16384};

static uint8_t stack[STACK] __attribute__((aligned(16)));
static ucontext_t host, called;
static size_t most[CALLS];

/* What is called, and with what. */
static enum call now;
static uint8_t image[RVN_IMAGE_BYTES], tape[16 * (RECORDS + 1)];
static size_t length, count;
static uint64_t op, a, b, value, numbers[RVN_VERDICT_NUMBERS];
static uint32_t from, answer, weights[RVN_WEIGHTS];

static void make_call(void)
{
    switch (now) {
    case STEP: answer = rvn_step(image, length, op, a, b, value); break;
    case FRESH: answer = rvn_fresh(image, length); break;
    case LEFT: answer = rvn_wakes_left(image, length, a); break;
    case DRAW: answer = rvn_draw(image, length, &from, 100, weights, count, &value); break;
    case DRAW_EVEN: answer = (uint32_t)rvn_draw_even(image, length, &from, 100, weights, count, &value); break;
    case DRAW_STEP: answer = (uint32_t)rvn_draw_step(image, length, &from, 100, weights, count, &value); break;
    case JUDGE: answer = rvn_judge(tape, length, numbers, count); break;
    default: break;
    }
}

/* How many bytes from the stack's end on are painted still. By eight at a time first: most of the stack is never written, and all of it is looked at. */
static size_t still_painted(void)
{
    const uint64_t eight = UINT64_MAX / 255 * PAINT;
    uint64_t seen = eight;
    size_t n = 0;
    for (; n < sizeof stack && seen == eight; n += sizeof seen)
        memcpy(&seen, stack + n, sizeof seen);
    if (seen != eight)
        n -= sizeof seen;
    while (n < sizeof stack && stack[n] == PAINT)
        n++;
    return n;
}

/* Makes the call on the painted stack, and keeps how many of its bytes were written at most. Then those are painted again. */
static void measure(enum call call)
{
    size_t free_bytes;
    now = call;
    if (getcontext(&called) != 0)
        exit(1);
    called.uc_stack.ss_sp = stack;
    called.uc_stack.ss_size = sizeof stack;
    called.uc_link = &host;
    makecontext(&called, make_call, 0);
    if (swapcontext(&host, &called) != 0)
        exit(1);
    free_bytes = still_painted();
    memset(stack + free_bytes, PAINT, sizeof stack - free_bytes);
    if (most[call] < sizeof stack - free_bytes)
        most[call] = sizeof stack - free_bytes;
}

static void step_with(uint64_t an_op, uint64_t an_a, uint64_t a_b, uint64_t a_value)
{
    op = an_op;
    a = an_a;
    b = a_b;
    value = a_value;
    measure(STEP);
}

/* A machine with up to 31 tasks and 7 objects, started. */
static void set_up(void)
{
    length = RVN_IMAGE_BYTES;
    measure(FRESH);
    for (uint64_t o = 1; o <= RVN_LAST_OBJECT; o++)
        step_with(RVN_OBJECT, o, 1 + (o + draw() % 8) % RVN_TOP_PRIORITY, 0);
    for (uint64_t tasks = below(RVN_LAST_TASK + 1), t = 1; t <= tasks; t++) {
        uint64_t base = 1 + below(RVN_TOP_PRIORITY);
        step_with(RVN_CREATE, t, base, 0);
    }
    step_with(RVN_START, 0, 0, 0);
}

/* A closing command, or, in half of the cases, one that ends in an exception and moves tasks alike: none is drawn. */
static uint64_t or_failing(uint64_t closing)
{
    static const uint8_t failing[] = {RVN_FAILP, RVN_FAILF, 0, RVN_FAILE};
    if (one_in(2) || (closing != RVN_CLOSEP && closing != RVN_CLOSEF && closing != RVN_DONE))
        return closing;
    return closing == RVN_CLOSEP && one_in(2) ? RVN_FAILW : failing[closing - RVN_CLOSEP];
}

/* From one image and one seed: by even choices, with its step in one call, and in two. */
static void draw_and_step(void)
{
    uint8_t was[RVN_IMAGE_BYTES];
    uint32_t first;
    from = one_in(20) ? 0 : 1 + (uint32_t)below(4294967295u);
    count = one_in(20) ? below(RVN_WEIGHTS) : RVN_WEIGHTS;
    for (int i = 0; i < RVN_WEIGHTS; i++)
        weights[i] = 1 + (uint32_t)below(one_in(20) ? 200 : 100);
    memcpy(was, image, sizeof was);
    first = from;
    measure(DRAW_EVEN);
    from = first;
    measure(DRAW_STEP);
    memcpy(image, was, sizeof was);
    from = first;
    measure(DRAW);
    if (RVN_CODE(answer) == RVN_ACCEPTED)
        step_with(or_failing(RVN_OP(answer)), RVN_A(answer), RVN_B(answer), value);
    else
        step_with(below(17), below(33), below(17), one_in(2) ? 0 : draw());
}

/* The calls on a spoilt image, or one of another length, which is then as it was. */
static void spoil_and_call(void)
{
    uint8_t was[RVN_IMAGE_BYTES];
    memcpy(was, image, sizeof was);
    length = one_in(4) ? below(RVN_IMAGE_BYTES) : RVN_IMAGE_BYTES;
    image[below(RVN_IMAGE_BYTES)] ^= (uint8_t)(1 + below(255));
    measure(LEFT);
    draw_and_step();
    measure(FRESH);
    length = RVN_IMAGE_BYTES;
    memcpy(image, was, sizeof was);
}

/* A record of the tape: the command that was just stepped, and its answer. */
static void record(size_t n)
{
    uint8_t *r = tape + 16 * n;
    r[0] = 0x52;
    r[1] = 0x56;
    r[2] = (uint8_t)op;
    r[3] = (uint8_t)a;
    r[4] = (uint8_t)b;
    r[5] = (uint8_t)RVN_CODE(answer);
    r[6] = (uint8_t)RVN_RUNNING(answer);
    r[7] = (uint8_t)RVN_RELEASED(answer);
    for (int i = 0; i < 8; i++)
        r[8 + i] = (uint8_t)(value >> 8 * i);
}

/* A run from the fresh machine with one task and one object, on a tape; judged whole, cut, and spoilt. */
static void judge_a_run(void)
{
    static const uint8_t header[16] = {0x52, 0x56, 0, 1, 0, 0, 0, 0, 1};
    memcpy(tape, header, sizeof header);
    length = RVN_IMAGE_BYTES;
    measure(FRESH);
    for (size_t n = 1; n <= RECORDS; n++) {
        uint64_t which = n <= 20 ? 1 + n % 2 : n == 21 ? 3 : 4 + below(12);
        uint64_t first = which <= 2 ? 1 + below(which == 1 ? 31 : 7) : which >= 7 ? 1 + below(7) : 0;
        uint64_t second = which <= 2 ? 1 + below(15) : which == 8 || (which >= 10 && which != RVN_FAILF) ? below(2) : 0;
        step_with(which, first, second, which == 4 || which == 6 ? below(100) : 0);
        record(n);
    }
    length = sizeof tape;
    count = RVN_VERDICT_NUMBERS;
    measure(JUDGE);
    length = below(sizeof tape + 1);
    measure(JUDGE);
    tape[below(sizeof tape)] ^= (uint8_t)(1 + below(255));
    measure(JUDGE);
    length = sizeof tape;
    count = below(8);
    measure(JUDGE);
}

int main(void)
{
    int fits = 1;
    memset(stack, PAINT, sizeof stack);
    measure(NOTHING);
    for (int i = 0; i < ROUNDS; i++) {
        set_up();
        for (int k = 0; k < 40; k++) {
            draw_and_step();
            a = below(33);
            measure(LEFT);
            spoil_and_call();
        }
        judge_a_run();
    }
    printf("stack in bytes:");
    for (int call = STEP; call < CALLS; call++) {
        size_t took = most[call] - most[NOTHING];
        printf("%s %s %zu (at most %zu)", call == STEP ? "" : ",", names[call], took, bounds[call]);
        fits &= took <= bounds[call];
    }
    printf("\n");
    return !fits;
}
