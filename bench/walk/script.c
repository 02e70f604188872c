/* script LINES: so many lines for walk. 31 tasks, 7 objects, all ops; one line in 64 is malformed, one in 16 is anything at all, the others follow the
   state, so that most are accepted. The same bytes on every machine. */
#include <stdio.h>
#include <stdlib.h>
#include "../step/kernel.h"

static uint32_t seed = 1;
static uint32_t draw(uint32_t n) {
    seed ^= seed << 13; seed ^= seed >> 17; seed ^= seed << 5;
    return seed % n;
}

/* A closing command, or one time in four the one that ends in an exception and moves tasks alike. */
static uint8_t closing(uint8_t op, unsigned y) {
    return y % 8 > 1 ? op : op == 8 ? (y % 8 ? 15 : 12) : op == 9 ? 13 : 14;
}

static command drawn(const kernel *k) {
    unsigned r = k->ready[0], o = k->held[r], x = draw(100), y = draw(60), z = draw(8);
    if (!draw(16)) return (command){ (uint8_t)(1 + x % 15), (uint8_t)(y % 9), (uint8_t)(z % 3), z };
    if (!r) return x < 60 ? (command){ 6, 0, 0, 1 + y } : (command){ 5, 0, 0, 0 };
    if (x < 20) return (command){ 5, 0, 0, 0 };
    if (x < 40) return (command){ 6, 0, 0, 1 + z };
    if (o && k->way[r] == 2) return (command){ closing(11, y), (uint8_t)o, (uint8_t)(z & 1), 0 };
    if (o) return x < 70 ? (command){ closing(8, y), (uint8_t)o, (uint8_t)(z & 1), 0 } : (command){ closing(9, y), (uint8_t)o, 0, 0 };
    if (x < 65) return (command){ 4, 0, 0, k->clock + y * z };
    return x < 85 ? (command){ 7, (uint8_t)(1 + y % 7), 0, 0 } : (command){ 10, (uint8_t)(1 + y % 7), z > 1, 0 };
}

static const char *const words[16] = { "", "create", "object", "start", "delay", "wake", "advance", "open", "closep", "closef", "entry", "done", "failp", "failf", "faile", "failw" };
static const char *const odd[8] = { "", "wake 0", "open 01", "advance 18446744073709551616", "Wake", "delay  5", "failp 1", "entry 1 1 a line that is much longer than the sixty-four bytes it may have" };

int main(int argc, char **argv) {
    unsigned long lines = argc > 1 ? strtoul(argv[1], 0, 10) : 1000000;
    kernel k;
    memset(&k, 0, sizeof k);
    for (unsigned long i = 0; i < lines; i++) {
        if (i > 38 && !draw(64)) {
            puts(odd[draw(8)]);
            continue;
        }
        command c = i < 31 ? (command){ 1, (uint8_t)(i + 1), (uint8_t)(1 + i % 12), 0 } : i < 38 ? (command){ 2, (uint8_t)(i - 30), (uint8_t)(9 + (i - 31)), 0 } : i == 38 ? (command){ 3, 0, 0, 0 } : drawn(&k);
        step(&k, c);
        printf("%s", words[c.op]);
        if (c.op < 3 || c.op > 6) printf(" %u", c.a);
        if (c.op < 3 || c.op == 8 || (c.op >= 10 && c.op != 13)) printf(" %u", c.b);
        if (c.op == 4 || c.op == 6) printf(" %llu", (unsigned long long)c.value);
        puts("");
    }
    return 0;
}
