/*
 * A second reading of the image and of document 01's step and draw with requests 2 and 6, written from the papers and docs/IMAGE.md alone, for
 * hostile.c and hostile_tapes.c to hold the libraries to. It shares no code, no table and no representation with them: a machine here is tasks that
 * say where they stand, and two lines. What only one of the two uses is inline, so that the other compiles without a warning.
 */
#ifndef READING_H
#define READING_H

#include <stdint.h>
#include <string.h>

enum place { NOWHERE, READY, DELAYED, WAITING };

struct task {
    int created, base, holds, way, failed; /* failed: an exception that no answer has shown */
    enum place place;
    uint64_t until;
};

struct machine {
    uint64_t clock;
    int started;
    struct task tasks[32];
    int ceiling[8], waiter[8];      /* 0: not declared; nobody */
    int ready[32], ready_count;     /* idle last */
    int delayed[32], delayed_count;
};

struct reply {
    unsigned code, running, released, exception;
};

static int active(const struct machine *m, int t)
{
    return m->tasks[t].holds ? m->ceiling[m->tasks[t].holds] : m->tasks[t].base;
}

static int running(const struct machine *m)
{
    return m->started ? m->ready[0] : 0;
}

/* ---- the layout */

static uint64_t number_at(const uint8_t *p)
{
    uint64_t x = 0;
    for (int i = 0; i < 8; i++)
        x |= (uint64_t)p[i] << (8 * i);
    return x;
}

static void put_number(uint8_t *p, uint64_t x)
{
    for (int i = 0; i < 8; i++)
        p[i] = (uint8_t)(x >> (8 * i));
}

/* The tasks of a line of 32 bytes that ends at its first 0, each standing there and nowhere else: 0 if it is no such line. */
static int read_line(struct machine *m, const uint8_t *p, enum place place, int *line, int *count)
{
    int ended = 0;
    *count = 0;
    for (int i = 0; i < 32; i++) {
        int t = p[i];
        if (t == 0) {
            ended = 1;
            continue;
        }
        if (ended || t > 31 || !m->tasks[t].created || m->tasks[t].place != NOWHERE)
            return 0;
        m->tasks[t].place = place;
        line[(*count)++] = t;
    }
    return 1;
}

/* 1 if the bytes are the image of a sound state, which is then in *m. */
static inline int read_image(struct machine *m, const uint8_t *s, size_t length)
{
    memset(m, 0, sizeof *m);
    if (length != 512 || s[8] > 1)
        return 0;
    for (int i = 9; i < 16; i++)
        if (s[i])
            return 0;
    for (int i = 196; i < 256; i++)
        if (s[i])
            return 0;
    m->clock = number_at(s);
    m->started = s[8];
    for (int o = 0; o < 8; o++) {
        m->ceiling[o] = s[16 + o];
        m->waiter[o] = s[24 + o];
        if (m->ceiling[o] > 15 || m->waiter[o] > 31 || (o == 0 && (m->ceiling[o] || m->waiter[o])))
            return 0;
    }
    for (int t = 0; t < 32; t++) {
        struct task *k = &m->tasks[t];
        k->base = s[32 + t];
        k->holds = s[128 + t];
        k->way = s[160 + t];
        k->until = number_at(s + 256 + 8 * t);
        k->failed = s[192 + t / 8] >> t % 8 & 1;
        k->created = t == 0 || k->base != 0;
        if (k->base > 15 || k->holds > 7 || k->way > 2 || (k->holds == 0) != (k->way == 0))
            return 0;
    }
    if (m->tasks[0].base || m->tasks[0].holds || m->tasks[0].failed)
        return 0;
    if (!read_line(m, s + 64, READY, m->ready, &m->ready_count) || !read_line(m, s + 96, DELAYED, m->delayed, &m->delayed_count))
        return 0;
    m->ready[m->ready_count++] = 0;
    m->tasks[0].place = READY;
    for (int o = 1; o < 8; o++) {
        struct task *k = &m->tasks[m->waiter[o]];
        if (!m->waiter[o])
            continue;
        if (!k->created || k->place != NOWHERE || !m->ceiling[o] || k->base > m->ceiling[o])
            return 0;
        k->place = WAITING;
    }
    int holder[8] = {0};
    for (int t = 0; t < 32; t++) {
        const struct task *k = &m->tasks[t];
        if (k->created != (k->place != NOWHERE) || (k->until && k->place != DELAYED))
            return 0;
        if (k->holds && (k->place != READY || !m->ceiling[k->holds] || k->base > m->ceiling[k->holds] || holder[k->holds]++))
            return 0;
        if (k->failed && !(k->created && m->started))
            return 0;
        if (!m->started && (m->clock || k->holds || k->place == DELAYED || k->place == WAITING))
            return 0;
    }
    for (int i = 1; i < m->ready_count; i++)
        if (active(m, m->ready[i - 1]) < active(m, m->ready[i]))
            return 0;
    for (int i = 1; i < m->delayed_count; i++)
        if (m->tasks[m->delayed[i - 1]].until > m->tasks[m->delayed[i]].until)
            return 0;
    return 1;
}

static inline void write_image(const struct machine *m, uint8_t *s)
{
    memset(s, 0, 512);
    put_number(s, m->clock);
    s[8] = (uint8_t)m->started;
    for (int o = 0; o < 8; o++) {
        s[16 + o] = (uint8_t)m->ceiling[o];
        s[24 + o] = (uint8_t)m->waiter[o];
    }
    for (int t = 0; t < 32; t++) {
        s[32 + t] = (uint8_t)m->tasks[t].base;
        s[128 + t] = (uint8_t)m->tasks[t].holds;
        s[160 + t] = (uint8_t)m->tasks[t].way;
        s[192 + t / 8] |= (uint8_t)(m->tasks[t].failed << t % 8);
        put_number(s + 256 + 8 * t, m->tasks[t].until);
    }
    for (int i = 0; i < m->ready_count; i++)
        s[64 + i] = (uint8_t)m->ready[i];
    for (int i = 0; i < m->delayed_count; i++)
        s[96 + i] = (uint8_t)m->delayed[i];
}

/* ---- the step */

static void insert(int *line, int *count, int at, int t)
{
    memmove(line + at + 1, line + at, (size_t)(*count - at) * sizeof *line);
    line[at] = t;
    ++*count;
}

static int take_first(int *line, int *count)
{
    int t = line[0];
    memmove(line, line + 1, (size_t)(*count - 1) * sizeof *line);
    --*count;
    return t;
}

/* Behind every task with an active priority of at least p. */
static void at_tail(struct machine *m, int p, int t)
{
    int i = 0;
    while (i < m->ready_count && active(m, m->ready[i]) >= p)
        i++;
    insert(m->ready, &m->ready_count, i, t);
    m->tasks[t].place = READY;
}

static int ranged(uint64_t x, uint64_t low, uint64_t high)
{
    return low <= x && x <= high;
}

/* 4: each op's operands. */
static int in_range(uint64_t op, uint64_t a, uint64_t b, uint64_t value)
{
    switch (op) {
    case 1: return ranged(a, 1, 31) && ranged(b, 1, 15) && value == 0;
    case 2: return ranged(a, 1, 7) && ranged(b, 1, 15) && value == 0;
    case 3: case 5: return a == 0 && b == 0 && value == 0;
    case 4: case 6: return a == 0 && b == 0;
    case 7: case 9: case 13: return ranged(a, 1, 7) && b == 0 && value == 0;
    case 8: case 10: case 11: case 12: case 14: case 15: return ranged(a, 1, 7) && b <= 1 && value == 0;
    default: return 0;
    }
}

static unsigned refusal(const struct machine *m, uint64_t op, uint64_t a, uint64_t b, uint64_t value)
{
    const struct task *r = &m->tasks[m->ready[0]];
    int uses = ranged(op, 7, 15), takes = op == 7 || op == 10, ends_entry = op == 11 || op == 14;
    if (!in_range(op, a, b, value))
        return 4;
    if (op >= 4 && !m->started)
        return 2;
    if (op <= 3 && m->started)
        return 3;
    if ((op == 1 && m->tasks[a].created) || (op == 2 && m->ceiling[a]))
        return 5;
    if (uses && !m->ceiling[a])
        return 6;
    if ((op == 4 || uses) && m->ready[0] == 0)
        return 7;
    if ((op == 4 || takes) && r->holds)
        return 8;
    if (uses && !takes && (r->holds != (int)a || r->way != (ends_entry ? 2 : 1)))
        return 9;
    if (takes && r->base > m->ceiling[a])
        return 10;
    for (int t = 1; takes && t < 32; t++)
        if (m->tasks[t].holds == (int)a)
            return 11;
    if (op == 10 && b == 0 && m->waiter[a])
        return 12;
    if (op == 6 && value > UINT64_MAX - m->clock)
        return 13;
    return 0;
}

/* The runner holds nothing and goes to the head of its base. */
static void close_object(struct machine *m)
{
    int t = take_first(m->ready, &m->ready_count);
    m->tasks[t].holds = m->tasks[t].way = 0;
    at_tail(m, m->tasks[t].base + 1, t);
}

static int serve(struct machine *m, uint64_t o)
{
    int t = m->waiter[o];
    if (t) {
        m->waiter[o] = 0;
        at_tail(m, m->tasks[t].base, t);
    }
    return t;
}

static int wake(struct machine *m)
{
    if (m->delayed_count == 0 || m->tasks[m->delayed[0]].until > m->clock)
        return 0;
    int t = take_first(m->delayed, &m->delayed_count);
    m->tasks[t].until = 0;
    at_tail(m, m->tasks[t].base, t);
    return t;
}

static void delay(struct machine *m, uint64_t time)
{
    int t = take_first(m->ready, &m->ready_count), i = 0;
    if (time <= m->clock) {
        at_tail(m, m->tasks[t].base, t);
        return;
    }
    while (i < m->delayed_count && m->tasks[m->delayed[i]].until <= time)
        i++;
    insert(m->delayed, &m->delayed_count, i, t);
    m->tasks[t].until = time;
    m->tasks[t].place = DELAYED;
}

/* An accepted op sets its exception, and then its answer shows the one of the task that it names. */
static void settle(struct machine *m, uint64_t op, int closer, struct reply *r)
{
    if (ranged(op, 12, 14))
        m->tasks[closer].failed = 1;
    if (op == 15 && r->released)
        m->tasks[r->released].failed = 1;
    r->exception = (unsigned)m->tasks[running(m)].failed;
    m->tasks[running(m)].failed = 0;
}

/* The answer to a command of a sound machine, which it steps if the command is accepted. */
static struct reply step(struct machine *m, uint64_t op, uint64_t a, uint64_t b, uint64_t value)
{
    struct reply r = {refusal(m, op, a, b, value), 0, 0, 0};
    int runner = m->ready[0];
    if (r.code == 0)
        switch (op) {
        case 1:
            m->tasks[a].created = 1;
            m->tasks[a].base = (int)b;
            at_tail(m, (int)b, (int)a);
            break;
        case 2: m->ceiling[a] = (int)b; break;
        case 3: m->started = 1; break;
        case 4: delay(m, value); break;
        case 5: r.released = (unsigned)wake(m); break;
        case 6: m->clock += value; break;
        case 8: case 11: case 12: case 14: case 15: r.released = b ? (unsigned)serve(m, a) : 0; close_object(m); break;
        case 9: case 13: close_object(m); break;
        default:
            if (op == 10 && b == 0) {
                take_first(m->ready, &m->ready_count);
                m->waiter[a] = runner;
                m->tasks[runner].place = WAITING;
            } else {
                m->tasks[runner].holds = (int)a;
                m->tasks[runner].way = op == 7 ? 1 : 2;
            }
        }
    if (r.code == 0)
        settle(m, op, runner, &r);
    r.running = (unsigned)running(m);
    return r;
}

/* "Wakes left": the code, and the count in `running`. */
static inline struct reply wakes_left(const struct machine *m, uint64_t task)
{
    struct reply r = {0, 0, 0, 0};
    if (!ranged(task, 1, 31))
        r.code = 4;
    else if (!m->tasks[task].created)
        r.code = 6;
    else
        for (int i = 0; i < m->delayed_count; i++)
            if (m->delayed[i] == (int)task && m->tasks[task].until <= m->clock)
                r.running = (unsigned)i + 1;
    return r;
}

/* ---- the draw */

struct draft {
    unsigned code;
    uint64_t op, a, b, value;
    uint32_t seed; /* the one left behind */
};

static uint32_t advanced(uint32_t x)
{
    x ^= x << 13;
    x ^= x >> 17;
    return x ^ x << 5;
}

static int held_by_any(const struct machine *m, int o)
{
    for (int t = 1; t < 32; t++)
        if (m->tasks[t].holds == o)
            return 1;
    return 0;
}

static int good_profile(uint64_t span, const uint32_t *weights, size_t count)
{
    if (count != 8 || !ranged(span, 1, 1000000) || weights[1] == 0)
        return 0;
    for (int i = 0; i < 8; i++)
        if (weights[i] > 100)
            return 0;
    return 1;
}

/* A draw over a sound machine, as a lottery: each legal kind has as many tickets as it weighs, in op order, and the first draw takes one. */
static inline struct draft drawn(const struct machine *m, uint32_t seed, uint64_t span, const uint32_t *weights, size_t count)
{
    struct draft r = {0, 0, 0, 0, 0, seed};
    r.code = seed == 0 ? 17 : !good_profile(span, weights, count) ? 18 : !m->started ? 2 : 0;
    if (r.code)
        return r;
    uint32_t d1 = advanced(seed), d2 = advanced(d1), d3 = advanced(d2);
    const struct task *k = &m->tasks[m->ready[0]];
    int idle = m->ready[0] == 0, free_hands = !idle && k->holds == 0, fits = span <= UINT64_MAX - m->clock;
    int eligible[8], objects = 0;
    for (int o = 1; o < 8; o++)
        if (m->ceiling[o] != 0 && m->ceiling[o] >= k->base && !held_by_any(m, o))
            eligible[objects++] = o;
    int legal[12] = {0}, tickets[800], sold = 0;
    legal[4] = free_hands && fits;
    legal[5] = 1;
    legal[6] = fits;
    legal[7] = legal[10] = free_hands && objects > 0;
    legal[8] = legal[9] = k->holds != 0 && k->way == 1;
    legal[11] = k->holds != 0 && k->way == 2;
    for (int op = 4; op <= 11; op++)
        for (uint32_t i = 0; legal[op] && i < weights[op - 4]; i++)
            tickets[sold++] = op;
    r.op = (uint64_t)tickets[d1 % (uint32_t)sold];
    r.seed = d3;
    if (r.op == 4)
        r.value = m->clock + d2 % (span + 1);
    if (r.op == 6)
        r.value = 1 + d2 % span;
    if (r.op == 7 || r.op == 10)
        r.a = (uint64_t)eligible[d2 % (uint32_t)objects];
    if (r.op == 8 || r.op == 9 || r.op == 11)
        r.a = (uint64_t)k->holds;
    if (r.op == 8 || r.op == 10 || r.op == 11)
        r.b = r.op == 10 && m->waiter[r.a] ? 1 : d3 % 2;
    return r;
}

#endif
