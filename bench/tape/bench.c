/* Times reading and writing a tape: the proved library beside the same loops in C, in one program, turn by turn, the best of several rounds.
   tape [ROUNDS] */
#define _POSIX_C_SOURCE 199309L
#include "c_tape.h"
#include <stdio.h>
#include <stdlib.h>
#include <string.h>
#include <time.h>

uint64_t tape_bench_read(const uint8_t *tape, size_t n, uint32_t records);
void tape_bench_write(uint8_t *out, size_t n, uint32_t records);

static __attribute__((noinline)) uint64_t c_bench_read(const uint8_t *tape, size_t n, uint32_t records)
{
    size_t at = 0;
    uint64_t sum = 0;
    for (uint32_t i = 0; i < records; i++) {
        c_record r;
        if (c_read_at(tape, n, at, &r) == C_FOUND) {
            sum ^= r.value;
            at += 16;
        }
    }
    return sum;
}

static __attribute__((noinline)) void c_bench_write(uint8_t *out, size_t n, uint32_t records)
{
    c_record head = { 0, 1, 0, 0, 0, 0, 1 };
    c_write_at(out, n, 0, &head);
    size_t at = 16;
    for (uint32_t i = 0; i < records; i++, at += 16) {
        c_record r = { 6, 0, 0, 0, 7, 0, i };
        c_write_at(out, n, at, &r);
    }
}

/* The same bytes moved with no check at all: what the memory allows. */
static __attribute__((noinline)) uint64_t bare_read(const uint8_t *tape, uint32_t records)
{
    uint64_t sum = 0, value;
    for (uint32_t i = 0; i < records; i++) {
        memcpy(&value, tape + (size_t)i * 16 + 8, 8);
        sum ^= value;
    }
    return sum;
}

static __attribute__((noinline)) void bare_write(uint8_t *out, uint32_t records)
{
    for (uint32_t i = 0; i < records; i++) {
        uint64_t words[2] = { 0x0007000000065652u, i };
        memcpy(out + (size_t)i * 16, words, 16);
    }
}

static double now(void)
{
    struct timespec t;
    clock_gettime(CLOCK_MONOTONIC, &t);
    return (double)t.tv_sec * 1e9 + (double)t.tv_nsec;
}

static void bench(const char *what, uint32_t records, uint32_t passes, uint32_t rounds)
{
    size_t n = (size_t)records * 16;
    uint8_t *ours = malloc(n), *theirs = malloc(n), *bare = malloc(n);
    double best[6] = { 1e300, 1e300, 1e300, 1e300, 1e300, 1e300 };
    uint64_t sums[3] = { 0, 0, 0 };
    if (!ours || !theirs || !bare)
        exit(2);
    memset(ours, 255, n);
    memset(theirs, 255, n);
    memset(bare, 255, n);
    for (uint32_t round = 0; round < rounds; round++) {
        for (int k = 0; k < 6; k++) {
            double began = now();
            for (uint32_t p = 0; p < passes; p++) {
                if (k == 0)
                    tape_bench_write(ours, n, records - 1);
                else if (k == 1)
                    c_bench_write(theirs, n, records - 1);
                else if (k == 2)
                    bare_write(bare, records);
                else if (k == 3)
                    sums[0] += tape_bench_read(ours, n, records);
                else if (k == 4)
                    sums[1] += c_bench_read(theirs, n, records);
                else
                    sums[2] += bare_read(ours, records);
                __asm__ volatile("" ::: "memory");
            }
            double took = (now() - began) / passes;
            if (took < best[k])
                best[k] = took;
        }
    }
    if (memcmp(ours, theirs, n) != 0 || sums[0] != sums[1] || sums[0] != sums[2]) {
        puts("DIFFERENT");
        exit(1);
    }
    for (int k = 0; k < 6; k += 3)
        printf("%-8s %-6s %6.2f ns %6.2f GB/s   C %6.2f ns   ratio %.2f   no checks %6.2f ns\n", what, k == 0 ? "write" : "read", best[k] / records,
               16 * records / best[k], best[k + 1] / records, best[k] / best[k + 1], best[k + 2] / records);
    free(ours);
    free(theirs);
    free(bare);
}

int main(int argc, char **argv)
{
    uint32_t rounds = argc > 1 ? (uint32_t)strtoul(argv[1], 0, 10) : 15;
    printf("per record of 16 bytes; best of %u rounds; buffers written before they are read\n", rounds);
    bench("64 KiB", 1 << 12, 500, rounds);
    bench("2 MiB", 1 << 17, 20, rounds);
    bench("64 MiB", 1 << 22, 1, rounds);
    return 0;
}
