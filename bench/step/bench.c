/* Times the shipped step, by value and on an image, against the same step in C, on one stream of commands, in one program.
   bench COMMANDS ROUNDS [c|rattle|image]: with a third word only that one runs, for a counter of instructions. */
#define _POSIX_C_SOURCE 199309L
#include <stdio.h>
#include <stdlib.h>
#include <time.h>
#include "kernel.h"
#include "../../host/rvn_image.h"

/* crate kernel_bench; a slice is a pointer and a length. It gathers each answer as `mixed` does: code + 256 * running + 65536 * released, and
   16777216 more where the answer shows an exception. */
uint64_t bench_run(const uint8_t *ops, size_t, const uint8_t *a, size_t, const uint8_t *b, size_t, const uint64_t *values, size_t, uint64_t sum);

static uint64_t mixed(uint64_t sum, answer r) {
    return (sum % 576460752303423488u * 31 + sum / 576460752303423488u) + r;
}

static __attribute__((noinline)) uint64_t c_run(const uint8_t *ops, const uint8_t *a, const uint8_t *b, const uint64_t *values, size_t n, uint64_t sum) {
    kernel k;
    memset(&k, 0, sizeof k);
    for (size_t i = 0; i < n; i++) sum = mixed(sum, step(&k, (command){ ops[i], a[i], b[i], values[i] }));
    return sum + k.clock;
}

/* crate image: the machine is its 512 bytes, read and written at each step */
static __attribute__((noinline)) uint64_t image_run(const uint8_t *ops, const uint8_t *a, const uint8_t *b, const uint64_t *values, size_t n, uint64_t sum) {
    uint8_t image[RVN_IMAGE_BYTES];
    uint64_t clock;
    rvn_fresh(image, sizeof image);
    for (size_t i = 0; i < n; i++) sum = mixed(sum, rvn_step(image, sizeof image, ops[i], a[i], b[i], values[i]));
    memcpy(&clock, image, sizeof clock);
    return sum + clock;
}

static uint32_t seed = 1;
static uint32_t draw(uint32_t n) {
    seed ^= seed << 13; seed ^= seed >> 17; seed ^= seed << 5;
    return seed % n;
}

/* A closing command, or one time in four the one that ends in an exception and moves tasks alike. */
static unsigned closing(unsigned op) {
    unsigned x = draw(8);
    return x > 1 ? op : op == 8 ? (x ? 15 : 12) : op == 9 ? 13 : 14;
}

/* A command for a started machine: one in sixteen is anything at all, the others follow the state, so that most are accepted. */
static command drawn(const kernel *k) {
    unsigned r = k->ready[0], o = k->held[r];
    if (!draw(16)) return (command){ draw(18), draw(9), draw(3), draw(4) };
    unsigned kind = draw(100);
    if (!r) return kind < 60 ? (command){ 6, 0, 0, 1 + draw(40) } : (command){ 5, 0, 0, 0 };
    if (kind < 20) return (command){ 5, 0, 0, 0 };
    if (kind < 40) return (command){ 6, 0, 0, 1 + draw(8) };
    if (o && k->way[r] == 2) return (command){ closing(11), o, draw(2), 0 };
    if (o) return kind < 70 ? (command){ closing(8), o, draw(2), 0 } : (command){ closing(9), o, 0, 0 };
    if (kind < 65) return (command){ 4, 0, 0, k->clock + draw(8) * draw(60) };
    return kind < 85 ? (command){ 7, 1 + draw(7), 0, 0 } : (command){ 10, 1 + draw(7), draw(4) > 0, 0 };
}

static double now(void) {
    struct timespec t;
    clock_gettime(CLOCK_MONOTONIC, &t);
    return t.tv_sec * 1e9 + t.tv_nsec;
}

int main(int argc, char **argv) {
    size_t n = argc > 1 ? strtoull(argv[1], 0, 10) : 100000, rounds = argc > 2 ? strtoull(argv[2], 0, 10) : 20;
    const char *only = argc > 3 ? argv[3] : "";
    uint8_t *ops = malloc(n), *a = malloc(n), *b = malloc(n);
    uint64_t *values = malloc(8 * n), lines = 0, accepted = 0, exceptions = 0, of_op[16] = { 0 };
    kernel k;
    memset(&k, 0, sizeof k);
    for (size_t i = 0; i < n; i++) {
        command c = i < 31 ? (command){ 1, i + 1, 1 + i % 12, 0 } : i < 38 ? (command){ 2, i - 30, 9 + (i - 31), 0 } : i == 38 ? (command){ 3, 0, 0, 0 } : drawn(&k);
        ops[i] = c.op; a[i] = c.a; b[i] = c.b; values[i] = c.value;
        answer r = step(&k, c);
        if (!(r & 255)) accepted++, of_op[c.op]++;
        if (r & EXCEPTION) exceptions++;
        for (int j = 0; j < 32 && k.delayed[j]; j++) lines++;
    }
    double best_c = 1e300, best_r = 1e300, best_i = 1e300;
    uint64_t sum_c = 0, sum_r = 0, sum_i = 0;
    for (size_t j = 0; j < rounds; j++) {
        double t0 = now();
        if (!*only || *only == 'c') sum_c = c_run(ops, a, b, values, n, sum_c);
        double t1 = now();
        if (!*only || *only == 'r') sum_r = bench_run(ops, n, a, n, b, n, values, n, sum_r);
        double t2 = now();
        if (!*only || *only == 'i') sum_i = image_run(ops, a, b, values, n, sum_i);
        double t3 = now();
        if (t1 - t0 < best_c) best_c = t1 - t0;
        if (t2 - t1 < best_r) best_r = t2 - t1;
        if (t3 - t2 < best_i) best_i = t3 - t2;
    }
    if (*only) return printf("%llx\n", (unsigned long long)(sum_c + sum_r + sum_i)) < 0;
    printf("%zu commands, %.1f%% accepted, %.1f tasks delayed on average; by op:", n, 100.0 * accepted / n, (double)lines / n);
    for (int op = 1; op < 16; op++) printf(" %llu", (unsigned long long)of_op[op]);
    printf("; exceptions shown: %llu", (unsigned long long)exceptions);
    bool equal = sum_c == sum_r && sum_c == sum_i;
    printf("\nanswers %s\n", equal ? "equal" : "DIFFER");
    printf("C       %7.1f ns a step\nRattle  %7.1f ns a step\nratio   %7.2f\n", best_c / n, best_r / n, best_r / best_c);
    printf("image   %7.1f ns a step\nratio   %7.2f\n", best_i / n, best_i / best_c);
    return !equal;
}
