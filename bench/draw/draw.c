/* The program draw in C, for speed: what ./run draw prints, with the step of kernel.h. The state is tested once for each drawn command. */
#include "../lines.h"

static kernel k;
static uint64_t n;
static uint32_t seed;
/* the first line's numbers, once it was read; the weights are of the ops 4 to 11 */
static bool opened;
static uint64_t span, weights[8], count;

static void show(uint64_t number, command c, answer r, uint64_t clock) {
    char *to = out + used;
    to = put(to, number, ' ');
    to = put(to, c.op, ' ');
    to = put(to, c.a, ' ');
    to = put(to, c.b, ' ');
    to = put(to, c.value, ' ');
    put_line(put_answer(to, r, clock));
}

static void zeros(answer code) {
    show(0, (command){ 0, 0, 0, 0 }, code, 0);
}

/* a text, and the place behind it; a null pointer where it is not there */
static const char *behind(const char *p, const char *end, const char *text) {
    size_t length = strlen(text);
    return (size_t)(end - p) >= length && !memcmp(p, text, length) ? p + length : 0;
}

/* The first line: its code, 0, 14, 17 or 18. */
static unsigned first_line(const char *p, const char *end) {
    if (end - p > 128 || !(p = behind(p, end, "seed "))) return 14;
    const char *blank = p - 1, *stop;
    while (p < end && *p != ' ') p++;
    stop = p;
    if (stop == blank + 1 || !(p = behind(p, end, " span")) || !(p = number(p, end, UINT32_MAX, &span)) || !(p = behind(p, end, " weights"))) return 14;
    for (unsigned i = 0; i < 8; i++) if (!(p = number(p, end, UINT32_MAX, &weights[i]))) return 14;
    if (!(p = behind(p, end, " count")) || number(p, end, 100000, &count) != end || !count) return 14;
    uint64_t s;
    if (number(blank, stop, UINT32_MAX, &s) != stop || !s) return 17;
    seed = (uint32_t)s;
    if (span < 1 || span > 1000000 || !weights[1]) return 18;
    for (unsigned i = 0; i < 8; i++) if (weights[i] > 100) return 18;
    return 0;
}

/* Whether more lines are wanted: through an accepted start. */
static bool line(const char *p, const char *end) {
    if (!opened) {
        unsigned code = first_line(p, end);
        if (code) {
            zeros(code);
            flush();
            exit(0);
        }
        return opened = true;
    }
    command c;
    answer r = carried_out(&k, p, end, &c);
    show(++n, c, r, k.clock);
    return !k.started;
}

static inline uint32_t draw(void) {
    seed ^= seed << 13; seed ^= seed >> 17; seed ^= seed << 5;
    return seed;
}

/* A command of the menu, of a state that is sound and started. */
static command drawn(void) {
    uint32_t d1 = draw(), d2 = draw(), d3 = draw();
    unsigned r = k.ready[0], hand = k.held[r], eligible = 0, many = 0, kind = 0;
    bool room = span <= UINT64_MAX - k.clock, unbound = r && !hand;
    if (unbound) {
        unsigned hands = 0;
        for (unsigned t = 0; t < 32; t++) hands |= 1u << k.held[t];
        for (unsigned o = 1; o < 8; o++) {
            bool is = k.ceiling[o] && k.ceiling[o] >= k.base[r] && !(hands >> o & 1);
            eligible |= (unsigned)is << o;
            many += is;
        }
    }
    uint32_t w[8] = { 0 }, sum = 0;
    w[1] = (uint32_t)weights[1];
    if (room) w[2] = (uint32_t)weights[2];
    if (unbound && room) w[0] = (uint32_t)weights[0];
    if (many) w[3] = (uint32_t)weights[3], w[6] = (uint32_t)weights[6];
    if (hand && k.way[r] == 1) w[4] = (uint32_t)weights[4], w[5] = (uint32_t)weights[5];
    if (hand && k.way[r] == 2) w[7] = (uint32_t)weights[7];
    for (unsigned i = 0; i < 8; i++) sum += w[i];
    for (d1 %= sum; d1 >= w[kind]; kind++) d1 -= w[kind];
    command c = { (uint8_t)(4 + kind), 0, 0, 0 };
    switch (c.op) {
    case 4: c.value = k.clock + d2 % (span + 1); break;
    case 6: c.value = 1 + d2 % span; break;
    case 7: case 10:
        for (d2 %= many; d2; d2--) eligible &= eligible - 1;
        c.a = (uint8_t)__builtin_ctz(eligible);
        if (c.op == 10) c.b = k.waiter[c.a] ? 1 : d3 & 1;
        break;
    case 8: case 9: case 11:
        c.a = (uint8_t)hand;
        if (c.op != 9) c.b = d3 & 1;
        break;
    default: break;
    }
    return c;
}

int main(void) {
    put_text("n op a b value code run rel clock\n");
    each_line(line);
    if (!opened) zeros(14);
    else if (!k.started) zeros(2);
    else for (; count; count--) {
        command c = { 0, 0, 0, 0 };
        answer r = 1 + 256u * k.ready[0];
        if (sound(&k)) c = drawn(), r = step_trusting(&k, c);
        show(++n, c, r, k.clock);
    }
    flush();
    return 0;
}
