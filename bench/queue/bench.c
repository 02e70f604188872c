/* Times the chip's delay queue and the delay line, both proved, beside the same two in C, over the same insertions and Wakes, in one program, turn by
   turn, the least of several rounds: queue [ROUNDS]. Three kinds of streams, with n tasks: they go in, one after another; they go in and are woken, one
   after another; they are in, and each Wake is followed by a delay of whom it woke. Each stream begins with nobody delayed. What an empty stream takes is
   taken off the first; what the first takes, off the other two. */
#define _POSIX_C_SOURCE 199309L
#include "c_queue.h"
#include <stddef.h>
#include <stdio.h>
#include <stdlib.h>
#include <time.h>

enum { STREAMS = 64, PAIRS = 50, MOST = STREAMS * (31 + 2 * PAIRS) };
enum { EMPTY, IN, IN_AND_OUT, STEADY, KINDS };
enum { CHIP, LINE, C_CHIP, C_LINE, WAYS };

typedef uint64_t runner(const uint8_t *tasks, size_t, const uint64_t *values, size_t, uint64_t sum);

/* crate queue_bench. A task is inserted until its value; 0 is a Wake at the clock that the value is. */
runner queue_bench_chip, queue_bench_line;

static inline uint64_t mixed(uint64_t sum, unsigned task, uint64_t time)
{
    return (sum % 576460752303423488u * 31 + sum / 576460752303423488u) + time + task;
}

static __attribute__((noinline)) uint64_t c_bench_chip(const uint8_t *tasks, size_t n, const uint64_t *values, size_t m, uint64_t sum)
{
    c_chip q;
    memset(&q, 0, sizeof q);
    for (size_t i = 0; i < n && i < m; i++) {
        if (tasks[i])
            c_chip_insert(&q, values[i], tasks[i]);
        else
            c_chip_wake(&q, values[i]);
        sum = mixed(sum, q.task, q.time);
    }
    return sum;
}

static __attribute__((noinline)) uint64_t c_bench_line(const uint8_t *tasks, size_t n, const uint64_t *values, size_t m, uint64_t sum)
{
    c_line l;
    memset(&l, 0, sizeof l);
    for (size_t i = 0; i < n && i < m; i++) {
        if (tasks[i])
            c_line_insert(&l, values[i], tasks[i]);
        else
            c_line_wake(&l, values[i]);
        sum = mixed(sum, l.delayed[0], l.until[l.delayed[0]]);
    }
    return sum;
}

/* The streams of one kind, one behind another: stream i is from[i] to from[i + 1]. */
typedef struct {
    uint8_t tasks[MOST];
    uint64_t values[MOST];
    size_t from[STREAMS + 1];
} pile;

static uint32_t seed;
static uint32_t draw(uint32_t n)
{
    seed ^= seed << 13; seed ^= seed >> 17; seed ^= seed << 5;
    return seed % n;
}

static void add(pile *p, unsigned task, uint64_t value)
{
    size_t at = p->from[STREAMS]++;
    p->tasks[at] = (uint8_t)task;
    p->values[at] = value;
}

/* each Wake comes when all are due, and whom it woke delays behind the next one */
static void add_pairs(pile *p, c_line *l, unsigned n)
{
    for (int i = 0; i < PAIRS; i++) {
        unsigned t = l->delayed[0];
        uint64_t until = l->until[t] + 1 + draw(2 * n);
        c_line_wake(l, UINT64_MAX);
        c_line_insert(l, until, t);
        add(p, 0, UINT64_MAX);
        add(p, t, until);
    }
}

/* n tasks, with times of which some are equal */
static void fill(pile *p, int kind, unsigned n)
{
    seed = n;
    p->from[STREAMS] = 0;
    for (int i = 0; i < STREAMS; i++) {
        c_line l;
        memset(&l, 0, sizeof l);
        p->from[i] = p->from[STREAMS];
        for (unsigned t = 1; t <= n && kind != EMPTY; t++) {
            uint64_t until = 1 + draw(2 * n);
            c_line_insert(&l, until, t);
            add(p, t, until);
        }
        for (unsigned t = 1; t <= n && kind == IN_AND_OUT; t++)
            add(p, 0, UINT64_MAX);
        if (kind == STEADY)
            add_pairs(p, &l, n);
    }
}

static double now(void)
{
    struct timespec t;
    clock_gettime(CLOCK_MONOTONIC, &t);
    return (double)t.tv_sec * 1e9 + (double)t.tv_nsec;
}

/* ns for a stream: all of a pile in one short go, which on a busy machine has the best chance of being left alone */
static double timed(const pile *p, runner *run, uint64_t *sum)
{
    double began = now();
    for (int i = 0; i < STREAMS; i++) {
        size_t at = p->from[i], n = p->from[i + 1] - at;
        *sum = run(p->tasks + at, n, p->values + at, n, *sum);
    }
    return (now() - began) / STREAMS;
}

static void tell(unsigned n, const char *what, const double *more, const double *less, double count)
{
    double ns[WAYS];
    for (int w = 0; w < WAYS; w++)
        ns[w] = (more[w] - less[w]) / count;
    printf("%2u tasks  %-14s chip %6.1f   line %6.1f   in C: chip %6.1f   line %6.1f   ratios: chip to line %5.2f   chip to C %5.2f   line to C %5.2f\n",
           n, what, ns[CHIP], ns[LINE], ns[C_CHIP], ns[C_LINE], ns[CHIP] / ns[LINE], ns[CHIP] / ns[C_CHIP], ns[LINE] / ns[C_LINE]);
}

static void bench(unsigned n, unsigned rounds)
{
    static runner *const ways[WAYS] = { queue_bench_chip, queue_bench_line, c_bench_chip, c_bench_line };
    static pile piles[KINDS];
    double best[KINDS][WAYS];
    for (int k = 0; k < KINDS; k++) {
        fill(&piles[k], k, n);
        for (int w = 0; w < WAYS; w++)
            best[k][w] = 1e300;
    }
    for (unsigned r = 0; r < rounds; r++)
        for (int k = 0; k < KINDS; k++) {
            uint64_t sums[WAYS] = { 0 };
            for (int w = 0; w < WAYS; w++) {
                double took = timed(&piles[k], ways[w], &sums[w]);
                if (took < best[k][w])
                    best[k][w] = took;
                if (sums[w] != sums[0]) {
                    puts("DIFFERENT");
                    exit(1);
                }
            }
        }
    tell(n, "insertion", best[IN], best[EMPTY], n);
    tell(n, "Wake", best[IN_AND_OUT], best[IN], n);
    tell(n, "Wake and delay", best[STEADY], best[IN], PAIRS);
}

int main(int argc, char **argv)
{
    unsigned rounds = argc > 1 ? (unsigned)strtoul(argv[1], 0, 10) : 1000;
    printf("ns; least of %u rounds\n", rounds);
    bench(2, rounds);
    bench(10, rounds);
    bench(31, rounds);
    return 0;
}
