/* Times the salvage of a torn tape: the proved library beside the same work in C, in one program, turn by turn, the best of several rounds; and compares what both
   leave, on many small tapes too.
   salvage [ROUNDS [MEGABYTES [SMALL]]] */
#define _POSIX_C_SOURCE 199309L
#include "c_salvage.h"
#include <stdio.h>
#include <stdlib.h>
#include <time.h>

enum { PIECE = 65536, KINDS = 5 };

uint8_t salvage_bench_whole(const uint8_t *tape, size_t n, uint8_t *out, size_t room, uint64_t *list, size_t numbers);
uint8_t salvage_bench_piece(uint64_t place, uint64_t from, const uint8_t *buf, size_t n, uint8_t *out, size_t room, uint64_t *list, size_t numbers,
                            uint64_t *told, size_t count);

static uint64_t state = 88172645463325252u;

static uint64_t drawn(void)
{
    state ^= state << 13;
    state ^= state >> 7;
    state ^= state << 17;
    return state >> 11;
}

static double now(void)
{
    struct timespec t;
    clock_gettime(CLOCK_MONOTONIC, &t);
    return (double)t.tv_sec * 1e9 + (double)t.tv_nsec;
}

/* a tape in pieces of 64 KiB, each behind the bytes that were held: here the tape lies in one buffer, so that nothing is moved; the sum of what was kept and listed */
static uint64_t in_pieces(const uint8_t *tape, size_t n, uint8_t *out, uint64_t *list)
{
    uint64_t told[4] = { 0, 0, 0, 0 }, sum = 0;
    while (told[0] + 16 <= n) {
        size_t size = n - told[0] < PIECE ? n - told[0] : PIECE;
        if (salvage_bench_piece(told[0], told[1], tape + told[0], size, out, PIECE, list, PIECE / 8, told, 4))
            exit(1);
        sum += told[2] + told[3];
    }
    return sum;
}

static uint64_t c_in_pieces(const uint8_t *tape, size_t n, uint8_t *out, uint64_t *list)
{
    uint64_t place = 0, from = 0, sum = 0;
    while (place + 16 <= n) {
        size_t size = n - place < PIECE ? n - place : PIECE;
        c_passed p = c_pass(tape + place, size, place, from, out, list);
        place += p.done;
        from = p.from;
        sum += p.kept + p.cells;
    }
    return sum;
}

static const char *kinds[KINDS] = { "clean", "random", "1 in 1000", "all 0x52", "marks" };

/* a tape of records; random bytes; records with 1 byte in 1000 changed; the mark's first byte only; marks only */
static void make(uint8_t *tape, size_t n, int kind)
{
    for (size_t i = 0; i < n; i++)
        tape[i] = kind == 3 ? 0x52 : kind == 4 ? (i & 1 ? 0x56 : 0x52) : (uint8_t)drawn();
    if (kind == 0 || kind == 2)
        for (size_t i = 0; i + 16 <= n; i += 16) {
            tape[i] = 0x52;
            tape[i + 1] = 0x56;
            tape[i + 2] = (uint8_t)(1 + tape[i + 2] % 15);
            tape[i + 5] %= 14;
            tape[i + 6] %= 32;
            tape[i + 7] %= 32;
        }
    if (kind == 2)
        for (size_t i = 0; i < n / 1000; i++)
            tape[drawn() % n] ^= 0x80;
}

static void differ(const char *what)
{
    printf("DIFFERENT: %s\n", what);
    exit(1);
}

static void bench(int kind, size_t n, uint32_t rounds)
{
    uint8_t *tape = malloc(n), *out = calloc(1, n), *c_out = calloc(1, n);
    uint64_t *list = calloc(n / 8, 8), *c_list = calloc(n / 8, 8), sums[2] = { 0, 0 };
    double best[4] = { 1e300, 1e300, 1e300, 1e300 };
    if (!tape || !out || !c_out || !list || !c_list)
        exit(2);
    make(tape, n, kind);
    for (uint32_t round = 0; round < rounds; round++)
        for (int k = 0; k < 4; k++) {
            double began = now();
            if (k == 0)
                salvage_bench_whole(tape, n, out, n, list, n / 8);
            else if (k == 1)
                c_salvage(tape, n, c_out, n, c_list, n / 8);
            else if (k == 2)
                sums[0] += in_pieces(tape, n, out, list);
            else
                sums[1] += c_in_pieces(tape, n, c_out, c_list);
            double took = now() - began;
            if (took < best[k])
                best[k] = took;
            if (k == 1 && (memcmp(out, c_out, n) || memcmp(list, c_list, n / 8 * 8)))
                differ(kinds[kind]);
        }
    if (sums[0] != sums[1])
        differ("in pieces");
    printf("%-10s whole %8.1f MB/s  C %8.1f  time ratio %.2f   in pieces %8.1f MB/s  C %8.1f  time ratio %.2f\n", kinds[kind], 1e3 * n / best[0],
           1e3 * n / best[1], best[0] / best[1], 1e3 * n / best[2], 1e3 * n / best[3], best[2] / best[3]);
    free(tape);
    free(out);
    free(c_out);
    free(list);
    free(c_list);
}

/* small tapes of records, right and wrong headers, lone marks and other bytes, over buffers that may be too small */
static void small(uint32_t count)
{
    for (uint32_t k = 0; k < count; k++) {
        uint8_t tape[128], out[160], c_out[160];
        uint64_t list[64], c_list[64];
        size_t n = drawn() % 120, i = 0;
        while (i < n) {
            unsigned r = drawn() % 8;
            if (r < 5) {
                uint8_t p[16] = { 0x52, 0x56, (uint8_t)(drawn() % 13), (uint8_t)drawn(), (uint8_t)drawn(), (uint8_t)(drawn() % 15), (uint8_t)(drawn() % 33), 0 };
                if (drawn() % 4 == 0) {
                    memset(p + 2, 0, 14);
                    p[3] = (uint8_t)(drawn() % 4);
                    p[8 + drawn() % 6] = (uint8_t)(drawn() % 3);
                }
                for (int z = 0; z < 16 && i < n; z++)
                    tape[i++] = p[z];
            } else {
                tape[i++] = r == 5 ? 0x52 : r == 6 ? 0x56 : (uint8_t)drawn();
            }
        }
        size_t room = drawn() % 3 ? 128 : drawn() % 128, numbers = drawn() % 3 ? 64 : drawn() % 20;
        memset(out, 7, sizeof out);
        memset(c_out, 7, sizeof c_out);
        memset(list, 7, sizeof list);
        memset(c_list, 7, sizeof c_list);
        if (salvage_bench_whole(tape, n, out, room, list, numbers) != c_salvage(tape, n, c_out, room, c_list, numbers) || memcmp(out, c_out, sizeof out) ||
            memcmp(list, c_list, sizeof list))
            differ("a small tape");
    }
    printf("%u small tapes: the same\n", count);
}

int main(int argc, char **argv)
{
    uint32_t rounds = argc > 1 ? (uint32_t)strtoul(argv[1], 0, 10) : 9;
    size_t n = (argc > 2 ? strtoul(argv[2], 0, 10) : 16) << 20;
    printf("best of %u rounds, tapes of %zu bytes; whole: measured, then written; in pieces of %d bytes: written at once\n", rounds, n, PIECE);
    for (int kind = 0; kind < KINDS; kind++)
        bench(kind, n, rounds);
    small(argc > 3 ? (uint32_t)strtoul(argv[3], 0, 10) : 300000);
    return 0;
}
