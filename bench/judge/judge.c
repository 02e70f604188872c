/*
 * The judge of tapes in C, for the benchmark beside the program judge: the same pieces, the same checks of each record, the same step with no
 * test of the state, and the same two lines. Records are taken where they lie in the buffer.
 */
#include "../step/kernel.h"
#include "../tape/c_tape.h"
#include <inttypes.h>
#include <stdio.h>
#include <unistd.h>

static const char *const words[] = {"", "create", "object", "start", "delay", "wake", "advance", "open", "closep", "closef", "entry", "done",
                                    "failp", "failf", "faile", "failw"};

static kernel machine;
static uint64_t number, seed;

static void show_answer(const char *whose, unsigned code, unsigned running, unsigned released, const char *end)
{
    printf("%s: code %u, running %u, released %u%s", whose, code, running, released, end);
}

static int differs(const c_record *r, answer rules)
{
    printf("seed %" PRIu64 "\ndiffers at record %" PRIu64 ", byte %" PRIu64 ": %s", seed, number, 16 * number, words[r->op]);
    if (r->op <= 2 || r->op >= 7)
        printf(" %u", r->a);
    if (r->op <= 2 || r->op == 8 || (r->op >= 10 && r->op != 13))
        printf(" %u", r->b);
    if (r->op == 4 || r->op == 6)
        printf(" %" PRIu64, r->value);
    printf(" (op %u, a %u, b %u, value %" PRIu64 "); ", r->op, r->a, r->b, r->value);
    show_answer("tape", r->code, r->running, r->released, "; ");
    show_answer("rules", rules & 255, rules >> 8 & 255, rules >> 16 & 255, "\n");
    return 1;
}

static int refused(int code)
{
    printf("seed %" PRIu64 "\nrefused %d at record %" PRIu64 ", byte %" PRIu64 "\n", seed, code, number, 16 * number);
    return 1;
}

/* 16 bytes; whether the verdict is there */
static int judge(const uint8_t *bytes)
{
    c_record r;
    int code = bytes[0] == 0x52 && bytes[1] == 0x56 ? c_fields(bytes, &r), c_fault(16 * number, &r) : 15;
    if (code)
        return refused(code);
    if (number == 0) {
        seed = r.value;
    } else {
        answer rules = step_trusting(&machine, (command){r.op, r.a, r.b, r.value});
        rules &= ~(answer)EXCEPTION; /* a record does not carry it */
        if (rules != (r.code | (answer)r.running << 8 | (answer)r.released << 16))
            return differs(&r, rules);
    }
    number++;
    return 0;
}

int main(void)
{
    static uint8_t piece[65536];
    size_t held = 0;
    ssize_t got;
    while ((got = read(0, piece + held, sizeof piece - held)) > 0) {
        size_t n = held + (size_t)got, at = 0;
        for (; n - at >= 16; at += 16)
            if (judge(piece + at))
                return 0;
        held = n - at;
        memcpy(piece, piece + at, held);
    }
    if (got < 0) {
        perror("judge");
        return 1;
    }
    if (held || number == 0)
        return !refused(15);
    printf("seed %" PRIu64 "\nagrees: %" PRIu64 " command records\n", seed, number - 1);
    return 0;
}
