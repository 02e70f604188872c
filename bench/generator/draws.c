/* 100,000 draws with their steps, in C, for speed: with EDITION 1 what crates/generator_run prints, with EDITION 2 what crates/generator_run_evenly prints. The step is
 * that of kernel.h, and the state is tested once for each drawn command. */
#include <stdio.h>
#include <string.h>
#include "../step/kernel.h"

static kernel k;
static uint32_t seed, spent, sum;
static uint64_t total_spent;
static const uint32_t span = EDITION == 1 ? 1000 : 1000000, weights[8] = { 10, 30, 20, 10, 10, 10, 20, 10 };

static void mix(uint64_t x) {
    sum = sum * 31 + (uint32_t)x + (uint32_t)(x >> 32);
}

static void told(command c, answer r) {
    mix(c.op), mix(c.a), mix(c.b), mix(c.value);
    mix(r & 255), mix(r >> 8 & 255), mix(r >> 16 & 255);
}

static inline uint32_t draw(void) {
    seed ^= seed << 13; seed ^= seed >> 17; seed ^= seed << 5;
    spent++;
    return seed;
}

/* A number below n. Edition 1: the remainder of a draw. Edition 2, even odds: at most eight draws, the eighth as it comes. */
static inline uint32_t below(uint32_t n) {
    if (EDITION == 1) return draw() % n;
    uint32_t limit = UINT32_MAX - UINT32_MAX % n, v;
    for (unsigned i = 0; i < 7; i++) {
        v = draw() - 1;
        if (v < limit) return v % n;
    }
    v = draw() - 1;
    return v % n;
}

/* A command of the menu, of a state that is sound and started. */
static command drawn(void) {
    unsigned r = k.ready[0], hand = k.held[r], eligible = 0, many = 0, kind = 0;
    bool room = span <= UINT64_MAX - k.clock, unbound = r && !hand;
    if (unbound) {
        unsigned hands = 0;
        for (unsigned t = 0; t < 32; t++) hands |= 1u << k.held[t];
        for (unsigned o = 1; o < 8; o++) {
            bool is = k.ceiling[o] && k.ceiling[o] >= k.base[r] && !(hands >> o & 1);
            eligible |= (unsigned)is << o;
            many += is;
        }
    }
    uint32_t w[8] = { 0 }, all = 0, d, x = 0;
    w[1] = weights[1];
    if (room) w[2] = weights[2];
    if (unbound && room) w[0] = weights[0];
    if (many) w[3] = weights[3], w[6] = weights[6];
    if (hand && k.way[r] == 1) w[4] = weights[4], w[5] = weights[5];
    if (hand && k.way[r] == 2) w[7] = weights[7];
    for (unsigned i = 0; i < 8; i++) all += w[i];
    for (d = below(all); d >= w[kind]; kind++) d -= w[kind];
    command c = { (uint8_t)(4 + kind), 0, 0, 0 };
    switch (c.op) {
    case 4: x = below(span + 1); break;
    case 6: x = below(span); break;
    case 7: case 10: x = below(many); break;
    default: draw(); break;
    }
    bool bit = false;
    switch (c.op) {
    case 4: c.value = k.clock + x; break;
    case 6: c.value = 1 + (uint64_t)x; break;
    case 7: case 10:
        for (; x; x--) eligible &= eligible - 1;
        c.a = (uint8_t)__builtin_ctz(eligible);
        if (c.op == 10) bit = !k.waiter[c.a], c.b = 1;
        break;
    case 8: case 9: case 11:
        c.a = (uint8_t)hand;
        bit = c.op != 9;
        break;
    default: break;
    }
    if (bit) c.b = (uint8_t)below(2);
    else draw();
    return c;
}

static void ask(uint8_t op, uint8_t a, uint8_t b) {
    command c = { op, a, b, 0 };
    told(c, step(&k, c));
}

static void show(unsigned n) {
    printf("%u %u %llu %u ", n, k.ready[0], (unsigned long long)k.clock, seed);
    if (EDITION == 2) printf("%llu ", (unsigned long long)total_spent);
    printf("%u\n", sum);
}

static void run(uint32_t from, unsigned count) {
    static const uint8_t tasks[8][2] = { { 1, 3 }, { 2, 5 }, { 3, 3 }, { 4, 9 }, { 5, 1 }, { 6, 15 }, { 7, 7 }, { 31, 5 } };
    static const uint8_t objects[5][2] = { { 1, 4 }, { 2, 9 }, { 3, 15 }, { 4, 5 }, { 7, 12 } };
    memset(&k, 0, sizeof k);
    seed = from, sum = 0, total_spent = 0;
    for (unsigned i = 0; i < 8; i++) ask(1, tasks[i][0], tasks[i][1]);
    for (unsigned i = 0; i < 5; i++) ask(2, objects[i][0], objects[i][1]);
    ask(3, 0, 0);
    show(0);
    for (unsigned n = 1; n <= count; n++) {
        if (!sound(&k)) return;
        spent = 0;
        command c = drawn();
        total_spent += spent;
        answer r = step_trusting(&k, c);
        mix(0);
        if (EDITION == 2) mix(spent);
        told(c, r);
        if (n % (EDITION == 1 ? 10000 : 5000) == 0) show(n);
    }
}

int main(void) {
    puts(EDITION == 1 ? "draws running clock seed sum" : "draws running clock seed spent sum");
    if (EDITION == 1) run(1, 100000);
    else run(1, 25000), run(2147483649u, 25000), run(2159691842u, 25000), run(4294967295u, 25000);
    return 0;
}
