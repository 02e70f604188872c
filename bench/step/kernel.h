/* The step of document 01 in C, by pointer, for speed: the same tables, the same test of the state and the same refusals as crate kernel. */
#ifndef BENCH_KERNEL_H
#define BENCH_KERNEL_H
#include <stdbool.h>
#include <stdint.h>
#include <string.h>

typedef struct {
    uint8_t base[32], ready[32], delayed[32], held[32], way[32];
    uint64_t until[32];
    uint8_t ceiling[8], waiter[8];
    uint64_t clock;
    uint32_t pending; /* bit t: an exception of task t that no answer has shown */
    bool started;
} kernel;

typedef struct { uint8_t op, a, b; uint64_t value; } command;

/* code + 256 * running + 65536 * released, and EXCEPTION if it shows one of the running task */
typedef uint32_t answer;
enum { EXCEPTION = 1 << 24 };

static inline unsigned level(const kernel *k, unsigned t) {
    unsigned o = k->held[t];
    return o ? k->ceiling[o] : k->base[t];
}

/* Sets of tasks and objects are bits of a word; ranges are tested before anything is indexed. */
static bool sound(const kernel *k) {
    uint32_t ready = 0, late = 0, wait = 0, made = 0;
    unsigned hands = 0, last = 15, i;
    if (k->base[0] || k->held[0] || k->ceiling[0] || k->waiter[0]) return false;
    for (unsigned o = 1; o < 8; o++) if (k->ceiling[o] > 15) return false;
    for (i = 0; i < 32 && k->ready[i]; i++) {
        unsigned t = k->ready[i];
        if (t > 31 || k->held[t] > 7) return false;
        unsigned p = level(k, t);
        if ((ready >> t & 1) || p > last) return false;
        ready |= 1u << t;
        last = p;
    }
    for (; i < 32; i++) if (k->ready[i]) return false;
    uint64_t time = 0;
    for (i = 0; i < 32 && k->delayed[i]; i++) {
        unsigned t = k->delayed[i];
        if (t > 31 || (late >> t & 1) || k->until[t] < time) return false;
        late |= 1u << t;
        time = k->until[t];
    }
    for (; i < 32; i++) if (k->delayed[i]) return false;
    for (unsigned o = 1; o < 8; o++) {
        unsigned t = k->waiter[o];
        if (!t) continue;
        if (t > 31 || (wait >> t & 1) || !k->ceiling[o] || k->base[t] > k->ceiling[o]) return false;
        wait |= 1u << t;
    }
    for (unsigned t = 0; t < 32; t++) {
        unsigned o = k->held[t];
        if (k->base[t] > 15) return false;
        made |= (uint32_t)(k->base[t] != 0) << t;
        if (k->until[t] && !(late >> t & 1)) return false;
        if (!o) {
            if (k->way[t]) return false;
        } else {
            if (o > 7 || (hands >> o & 1) || !(ready >> t & 1) || !k->ceiling[o] || k->base[t] > k->ceiling[o]) return false;
            if (k->way[t] != 1 && k->way[t] != 2) return false;
            hands |= 1u << o;
        }
    }
    if ((ready & late) | (ready & wait) | (late & wait) | ((ready | late | wait) ^ made) | (k->pending & ~made)) return false;
    return k->started || (!k->clock && !late && !wait && !hands && !k->pending);
}

static bool formed(command c) {
    bool object = c.a >= 1 && c.a <= 7;
    switch (c.op) {
    case 1: return c.a >= 1 && c.a <= 31 && c.b >= 1 && c.b <= 15 && !c.value;
    case 2: return object && c.b >= 1 && c.b <= 15 && !c.value;
    case 3: case 5: return !c.a && !c.b && !c.value;
    case 4: case 6: return !c.a && !c.b;
    case 7: case 9: case 13: return object && !c.b && !c.value;
    case 8: case 10: case 11: case 12: case 14: case 15: return object && c.b <= 1 && !c.value;
    default: return false;
    }
}

static unsigned refusal(const kernel *k, command c) {
    if (!formed(c)) return 4;
    if (c.op >= 4) {
        if (!k->started) return 2;
    } else {
        if (k->started) return 3;
        if (c.op == 1 && k->base[c.a]) return 5;
        if (c.op == 2 && k->ceiling[c.a]) return 5;
        return 0;
    }
    unsigned r = k->ready[0];
    switch (c.op) {
    case 4:
        if (!r) return 7;
        return k->held[r] ? 8 : 0;
    case 6: return c.value > UINT64_MAX - k->clock ? 13 : 0;
    case 7: case 10:
        if (!k->ceiling[c.a]) return 6;
        if (!r) return 7;
        if (k->held[r]) return 8;
        if (k->base[r] > k->ceiling[c.a]) return 10;
        if (memchr(k->held, c.a, 32)) return 11;
        return c.op == 10 && !c.b && k->waiter[c.a] ? 12 : 0;
    case 8: case 9: case 11: case 12: case 13: case 14: case 15:
        if (!k->ceiling[c.a]) return 6;
        if (!r) return 7;
        return k->held[r] == c.a && k->way[r] == (c.op == 11 || c.op == 14 ? 2 : 1) ? 0 : 9;
    default: return 0;
    }
}

static inline void insert(uint8_t *line, unsigned at, unsigned t) {
    memmove(line + at + 1, line + at, 31 - at);
    line[at] = t;
}

static inline void pop(uint8_t *line) {
    memmove(line, line + 1, 31);
    line[31] = 0;
}

/* t at the tail of p: idle's level 0 stops the search, for p is at least 1 */
static void place(kernel *k, unsigned p, unsigned t) {
    unsigned i = 0;
    while (level(k, k->ready[i]) >= p) i++;
    insert(k->ready, i, t);
}

static void close_object(kernel *k) {
    unsigned r = k->ready[0];
    k->held[r] = k->way[r] = 0;
    pop(k->ready);
    place(k, k->base[r] + 1u, r);
}

/* what an accepted closing by an exception leaves: bit 0, idle's, is that of nobody */
static inline uint32_t raised(unsigned op, unsigned closer, unsigned released) {
    return op < 12 ? 0 : (1u << (op == 15 ? released : closer)) & ~1u;
}

/* the step of a machine known to be sound */
static answer step_trusting(kernel *k, command c) {
    unsigned code = refusal(k, c), r = k->ready[0], t = 0, i = 0;
    if (code) return code + 256 * (k->started ? r : 0);
    switch (c.op) {
    case 1: k->base[c.a] = c.b; place(k, c.b, c.a); break;
    case 2: k->ceiling[c.a] = c.b; break;
    case 3: k->started = true; break;
    case 4:
        pop(k->ready);
        if (c.value > k->clock) {
            while (k->delayed[i] && k->until[k->delayed[i]] <= c.value) i++;
            insert(k->delayed, i, r);
            k->until[r] = c.value;
        } else {
            place(k, k->base[r], r);
        }
        break;
    case 5:
        if (k->delayed[0] && k->until[k->delayed[0]] <= k->clock) {
            t = k->delayed[0];
            pop(k->delayed);
            k->until[t] = 0;
            place(k, k->base[t], t);
        }
        break;
    case 6: k->clock += c.value; break;
    case 7: k->held[r] = c.a; k->way[r] = 1; break;
    case 8: case 11: case 12: case 14: case 15:
        if (c.b && k->waiter[c.a]) {
            t = k->waiter[c.a];
            k->waiter[c.a] = 0;
            place(k, k->base[t], t);
        }
        close_object(k);
        break;
    case 10:
        if (c.b) {
            k->held[r] = c.a; k->way[r] = 2;
        } else {
            pop(k->ready);
            k->waiter[c.a] = r;
        }
        break;
    default: close_object(k); break;
    }
    unsigned now = k->started ? k->ready[0] : 0;
    uint32_t all = k->pending | raised(c.op, r, t);
    k->pending = all & ~(1u << now);
    return 256u * now + 65536u * t + EXCEPTION * (all >> now & 1);
}

static inline answer step(kernel *k, command c) {
    return sound(k) ? step_trusting(k, c) : 1;
}
#endif
